//! The bytes held, with figures worked out by hand. The runs compare them with the model's count after every call.

use std::time::Duration;

use crate::{BlockHandler, BlockHandlerConfig, BlockValue, Refusal, Request, RequestAnswer, Response, ResponseAnswer, ENTRIES};

/// Fills both pieces of every key, and gives the handler.
fn full(piece: usize, block: usize, head: &[u8]) -> BlockHandler {
    let config = BlockHandlerConfig { max_upload: piece, max_response: piece, ..BlockHandlerConfig::default() };
    let mut handler = BlockHandler::new(config);
    let asked = BlockValue::new(handler.mode(), 0, false, 16).unwrap().write(handler.mode());
    for key in 0..ENTRIES as u8 {
        let request = Request { key: &[key], block2: Some(&asked), ..Request::default() };
        assert_eq!(handler.intercept_request(&request), Ok(RequestAnswer::Pass { body: &[] }));
        let page = vec![key; piece - head.len()];
        let response = Response { key: &[key], head, payload: &page, ..Response::default() };
        assert!(matches!(handler.intercept_response(&response), Ok(ResponseAnswer::First { .. })));
        for num in 0..piece / block {
            let block1 = BlockValue::new(handler.mode(), num, true, block).unwrap().write(handler.mode());
            let request = Request { key: &[key], block1: Some(&block1), payload: &vec![key; block], ..Request::default() };
            assert!(matches!(handler.intercept_request(&request), Ok(RequestAnswer::Continue { .. })));
        }
        assert_eq!(handler.bytes_held(), (u64::from(key) + 1) * 2 * piece as u64);
    }
    handler
}

/// At most 16 (U + V), which is reached. A key more, a block more and an earlier time are refused, and change nothing of it.
#[test]
fn the_most() {
    for (piece, block, head) in [(32, 16, &[9; 15][..]), (65_536, 1024, &[9; 128])] {
        let mut handler = full(piece, block, head);
        let most = 16 * (piece + piece) as u64;
        let more = BlockValue::new(handler.mode(), piece / block, true, block).unwrap().write(handler.mode());
        let request = Request { time: 5, key: &[3], block1: Some(&more), payload: &vec![1; block], ..Request::default() };
        assert_eq!(handler.intercept_request(&request), Err(Refusal::NoRoom));
        assert_eq!(handler.bytes_held(), most);
        assert_eq!(handler.intercept_request(&Request { time: 4, ..request }), Err(Refusal::ClockBack));
        assert_eq!(handler.bytes_held(), most);
        assert_eq!(handler.intercept_request(&Request { key: b"another", ..request }), Err(Refusal::TableFull));
        assert_eq!(handler.bytes_held(), most);
    }
}

/// All keys but one expire. They count until a call frees them: one with refusal 4 does, one with refusal 1 does not.
#[test]
fn expired() {
    let mut handler = full(64, 16, b"head");
    let lifetime = Duration::from_secs(120).as_millis() as u64;
    let touch = Request { time: 1, key: &[7], ..Request::default() };
    assert_eq!(handler.intercept_request(&touch), Ok(RequestAnswer::Pass { body: &[] }));
    assert_eq!(handler.intercept_request(&Request { time: lifetime, bare: 65_536, ..touch }), Err(Refusal::OffLimits));
    assert_eq!(handler.bytes_held(), 16 * 128);
    assert_eq!(handler.intercept_request(&Request { time: lifetime, bare: 65_535, ..touch }), Err(Refusal::TooLargeToEncode));
    assert_eq!(handler.bytes_held(), 128);
    assert_eq!(handler.intercept_request(&Request { time: 2 * lifetime, key: b"another", ..touch }), Ok(RequestAnswer::Pass { body: &[] }));
    assert_eq!(handler.bytes_held(), 0);
}
