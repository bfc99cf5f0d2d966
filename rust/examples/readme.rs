use block_handler::{BlockHandler, BlockHandlerConfig, Refusal, Request, RequestAnswer};

fn main() -> Result<(), Refusal> {
    let mut handler = BlockHandler::new(BlockHandlerConfig::default()); // strict mode, pieces of 64 KiB
    let block1 = [0x00]; // block 0 of 16 bytes, the last
    let request = Request { key: b"lane 7", bare: 20, block1: Some(&block1), payload: b"milk 1.19", ..Request::default() };

    match handler.intercept_request(&request)? {
        RequestAnswer::Continue { block1 } => println!("send 2.31 with Block1 {:02x?}", &block1.write(handler.mode())[..]),
        RequestAnswer::Handed { body, .. } | RequestAnswer::Pass { body } => println!("{}", String::from_utf8_lossy(body)),
        other => println!("{other:?}"),
    }
    Ok(())
}
