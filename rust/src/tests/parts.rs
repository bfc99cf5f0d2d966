//! Bodies, chunks and heads lie in the memories or in the message's own payload: nothing is copied.

use std::ops::Range;
use std::time::Duration;

use crate::{BlockHandler, BlockHandlerConfig, BlockValue, Mode, Refusal, Request, RequestAnswer, Response, ResponseAnswer};

/// The script program's configuration, whose example follows.
const CONFIG: BlockHandlerConfig = BlockHandlerConfig {
    max_total_message_size: 64,
    cache_expiry_duration: Duration::from_secs(120),
    mode: Mode::Plain,
    max_upload: 2048,
    max_response: 1024,
};

fn block(num: u32, more: bool) -> BlockValue {
    BlockValue { num, more, size_exponent: 0 }
}

fn within(part: &[u8], whole: &Range<*const u8>) -> bool {
    let part = part.as_ptr_range();
    whole.start <= part.start && part.end <= whole.end
}

/// Document 01's six lines, each with its answer.
#[test]
fn document_01() {
    let mut handler = BlockHandler::new(CONFIG);
    let upload = handler.upload.as_ptr_range();
    let cache = handler.response.as_ptr_range();
    let one = Request { key: &[1], bare: 20, ..Request::default() };
    let two = Request { key: &[2], ..one };

    let first = Request { block1: Some(&[0x08]), payload: &[0x41; 16], ..one };
    assert_eq!(handler.intercept_request(&first), Ok(RequestAnswer::Continue { block1: block(0, false) }));

    let last = Request { block1: Some(&[0x10]), payload: &[0x42; 4], ..one };
    for (time, lead) in [(1, 0x41), (2, 0)] {
        let mut whole = [lead; 20];
        whole[16..].fill(0x42);
        let answer = handler.intercept_request(&Request { time, ..last }).unwrap();
        assert_eq!(answer, RequestAnswer::Handed { block1: block(1, false), body: &whole });
        assert!(within(answer.body(), &upload));
    }

    let answer = handler.intercept_request(&Request { time: 3, ..two });
    assert_eq!(answer, Ok(RequestAnswer::Pass { body: &[] }));

    let page = [0x43; 17];
    let response = Response { time: 4, key: &[2], bare: 36, payload: &page, ..Response::default() };
    let Ok(ResponseAnswer::First { block2, chunk }) = handler.intercept_response(&response) else { panic!("not First") };
    assert_eq!((block2, chunk), (block(0, true), &page[..16]));
    assert_eq!(chunk.as_ptr(), page.as_ptr());

    let answer = handler.intercept_request(&Request { time: 5, block2: Some(&[0x10]), ..two }).unwrap();
    assert_eq!(answer, RequestAnswer::Served { block1: None, block2: block(1, false), head: &[], chunk: &[0x43] });
    let RequestAnswer::Served { chunk, .. } = answer else { unreachable!() };
    assert!(within(chunk, &cache));
}

#[test]
fn a_passed_body_is_the_payload() {
    let mut handler = BlockHandler::new(CONFIG);
    let payload = *b"as it came";
    let answer = handler.intercept_request(&Request { key: b"k", payload: &payload, ..Request::default() }).unwrap();
    assert_eq!(answer.body().as_ptr_range(), payload.as_ptr_range());
    assert_eq!(answer.response_code(), None);
}

#[test]
fn a_head_is_shown_with_each_chunk() {
    let mut handler = BlockHandler::new(CONFIG);
    let request = Request { key: b"k", block2: Some(&[0x00]), ..Request::default() };
    assert_eq!(handler.intercept_request(&request), Ok(RequestAnswer::Pass { body: &[] }));
    let response = Response { key: b"k", head: b"2.05", payload: &[9; 40], ..Response::default() };
    assert_eq!(handler.intercept_response(&response), Ok(ResponseAnswer::First { block2: block(0, true), chunk: &[9; 16] }));
    for (num, more, option, len) in [(1, true, [0x10], 16), (2, false, [0x20], 8)] {
        let answer = handler.intercept_request(&Request { block2: Some(&option), ..request });
        let served = RequestAnswer::Served { block1: None, block2: block(num, more), head: b"2.05", chunk: &[9; 16][..len] };
        assert_eq!(answer, Ok(served));
    }
}

#[test]
fn lent_memories() {
    let (mut upload, mut response) = ([0; 16 * 32], [0; 16 * 16]);
    let config = BlockHandlerConfig { max_upload: 32, max_response: 16, mode: Mode::Strict, ..CONFIG };
    let mut handler = BlockHandler::with_memories(config, &mut upload[..], &mut response[..]);
    let request = Request { key: b"k", block1: Some(&[0x00]), payload: b"whole", ..Request::default() };
    assert_eq!(handler.intercept_request(&request).unwrap().body(), b"whole");
    assert_eq!(&upload[..5], b"whole");
}

#[test]
fn codes() {
    let mut handler = BlockHandler::new(BlockHandlerConfig { mode: Mode::Strict, ..CONFIG });
    let request = Request { key: b"k", block1: Some(&[0x08]), payload: &[1; 16], ..Request::default() };
    assert_eq!(handler.intercept_request(&request).unwrap().response_code(), Some(0x5f));
    assert_eq!(handler.intercept_request(&Request { block1: None, payload: &[1; 60], ..request }).unwrap().response_code(), Some(0x8d));
    let skipped = handler.intercept_request(&Request { block1: Some(&[0x28]), ..request });
    assert_eq!(skipped.map_err(Refusal::response_code), Err(0x88));
    let short = handler.intercept_request(&Request { payload: &[1; 15], ..request });
    assert_eq!(short.map_err(Refusal::response_code), Err(0x80));
}

#[test]
fn refusals_have_their_numbers() {
    for number in 1..=10 {
        assert_eq!(Refusal::from_number(number).map(Refusal::number), Some(number));
    }
    assert_eq!((Refusal::from_number(0), Refusal::from_number(11)), (None, None));
    assert_eq!(Refusal::NotNext.to_string(), "refusal 9: not the next block");
}
