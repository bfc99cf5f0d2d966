//! Uploads whose blocks get smaller on the way. Strict mode takes a smaller block that starts where the assembly ends, and no larger one.

use super::long::{list, Others};
use crate::{BlockHandler, BlockHandlerConfig, BlockValue, Mode, Refusal, Request, RequestAnswer};

/// A block with the list's bytes from its start on, and what it is answered.
#[derive(Debug, Clone, Copy)]
struct Step {
    num: usize,
    more: bool,
    size: usize,
    len: usize,
    meant: Meant,
}

#[derive(Debug, Clone, Copy)]
enum Meant {
    Taken,
    /// The list is handed on, from its first byte to the block's last.
    Handed,
    NotNext,
}

/// A full block with more to come.
const fn taken(num: usize, size: usize) -> Step {
    Step { num, more: true, size, len: size, meant: Meant::Taken }
}

const fn last(num: usize, size: usize, len: usize) -> Step {
    Step { num, more: false, size, len, meant: Meant::Handed }
}

const fn refused(num: usize, more: bool, size: usize, len: usize) -> Step {
    Step { num, more, size, len, meant: Meant::NotNext }
}

const THREE_SIZES: &[Step] = &[taken(0, 1024), taken(2, 512), taken(96, 16), last(97, 16, 16)];

const ALL_SEVEN: &[Step] =
    &[taken(0, 1024), taken(2, 512), taken(6, 256), taken(14, 128), taken(30, 64), taken(62, 32), taken(126, 16), last(127, 16, 9)];

const SOME_OF_EACH: &[Step] =
    &[taken(0, 1024), taken(1, 1024), taken(4, 512), taken(5, 512), taken(6, 512), taken(56, 64), taken(57, 64), last(58, 64, 1)];

const ON_THE_LAST: &[Step] = &[taken(0, 1024), last(2, 512, 100)];

const ON_THE_LAST_AND_FULL: &[Step] = &[taken(0, 1024), last(64, 16, 16)];

const EMPTY_LAST: &[Step] = &[taken(0, 1024), last(64, 16, 0)];

const EMPTY_LAST_AFTER_A_FALL: &[Step] = &[taken(0, 1024), taken(2, 512), last(12, 128, 0)];

fn request<'a>(time: u64, block1: &'a [u8], payload: &'a [u8]) -> Request<'a> {
    Request { time, key: b"lane 1 PUT /prices", bare: 20, block1: Some(block1), payload, ..Request::default() }
}

/// Makes the call. A block that is taken gets its own num and size back; one that is refused leaves the bytes held as they were.
fn send(handler: &mut BlockHandler, time: u64, list: &[u8], step: &Step) {
    let Step { num, more, size, len, meant } = *step;
    let (from, to) = (num * size, num * size + len);
    let block = BlockValue::new(handler.mode(), num, more, size).expect("there is such a block");
    let block1 = BlockValue { more: false, ..block };
    let meant = match meant {
        Meant::Taken => Ok(RequestAnswer::Continue { block1 }),
        Meant::Handed => Ok(RequestAnswer::Handed { block1, body: &list[..to] }),
        Meant::NotNext => Err(Refusal::NotNext),
    };
    let held = handler.bytes_held();
    assert_eq!(handler.intercept_request(&request(time, &block.write(handler.mode()), &list[from..to])), meant, "{step:?}");
    if meant.is_err() {
        assert_eq!(handler.bytes_held(), held, "{step:?}");
    }
}

/// Uploads one after the other under one key, each of another list. In strict mode three other lanes call after each block.
fn run(mode: Mode, uploads: &[&[Step]]) {
    let mut handler = BlockHandler::new(BlockHandlerConfig { mode, ..BlockHandlerConfig::default() });
    let (mut others, mut time) = (Others::default(), 0);
    let bytes = list(8192);
    for (i, steps) in uploads.iter().enumerate() {
        for step in *steps {
            time += 1;
            send(&mut handler, time, &bytes[i..], step);
            if mode == Mode::Strict {
                (0..3).for_each(|_| others.call(&mut handler, time));
            }
        }
    }
}

#[test]
fn three_sizes() {
    run(Mode::Strict, &[THREE_SIZES]);
}

#[test]
fn through_all_seven_sizes() {
    run(Mode::Strict, &[ALL_SEVEN]);
}

#[test]
fn some_blocks_of_each_size() {
    run(Mode::Strict, &[SOME_OF_EACH]);
}

#[test]
fn the_last_block_is_smaller() {
    run(Mode::Strict, &[ON_THE_LAST, ON_THE_LAST_AND_FULL]);
}

#[test]
fn an_empty_last_block_of_a_smaller_size() {
    run(Mode::Strict, &[EMPTY_LAST, EMPTY_LAST_AFTER_A_FALL]);
}

/// The next upload begins at any size, whatever the one before ended with.
#[test]
fn one_list_after_the_other() {
    run(Mode::Strict, &[THREE_SIZES, ALL_SEVEN, EMPTY_LAST, SOME_OF_EACH, ON_THE_LAST, THREE_SIZES]);
}

/// Each of them is at the end of what is assembled, so plain mode takes them, too.
#[test]
fn plain_mode_takes_the_same() {
    let all = [THREE_SIZES, ALL_SEVEN, SOME_OF_EACH, ON_THE_LAST, ON_THE_LAST_AND_FULL, EMPTY_LAST, EMPTY_LAST_AFTER_A_FALL];
    run(Mode::Plain, &all);
}

/// A larger block is refused at the end of what is assembled, too, even at the size that the upload began with. Then the upload goes on.
#[test]
fn a_larger_block() {
    let after_a_fall = [
        taken(0, 64),
        taken(2, 32),
        taken(3, 32),
        refused(2, true, 64, 64),
        refused(1, true, 128, 128),
        refused(2, false, 64, 10),
        refused(2, false, 64, 0),
        taken(4, 32),
        last(10, 16, 5),
    ];
    let with_none_before = [taken(0, 16), taken(1, 16), refused(1, true, 32, 32), last(2, 16, 3)];
    run(Mode::Strict, &[&after_a_fall, &with_none_before]);
}

/// The sender counts on without rescaling, or is a block off. Then the upload goes on at the right offset.
#[test]
fn a_smaller_block_with_the_wrong_start() {
    let steps = [
        taken(0, 1024),
        refused(1, true, 512, 512),
        refused(1, true, 16, 16),
        refused(1, false, 512, 100),
        refused(3, true, 512, 512),
        taken(2, 512),
        refused(3, true, 256, 256),
        refused(2, true, 512, 512),
        last(6, 256, 9),
    ];
    run(Mode::Strict, &[&steps]);
}

/// Block 0 starts afresh whatever its size: nothing of the list before it is handed on.
#[test]
fn block_0_of_a_larger_size() {
    run(Mode::Strict, &[&[taken(0, 32), taken(2, 16)], &[taken(0, 1024), taken(1, 1024), last(4, 512, 7)]]);
    run(Mode::Strict, &[&[taken(0, 32), taken(2, 16)], &[last(0, 1024, 5)]]);
}

#[test]
fn block_0_of_a_smaller_size() {
    run(Mode::Strict, &[&[taken(0, 1024), taken(2, 512)], &[taken(0, 16), taken(1, 16), refused(1, true, 32, 32), last(2, 16, 1)]]);
    run(Mode::Strict, &[&[taken(0, 1024), taken(1, 1024)], &[last(0, 16, 16)]]);
}

/// A back office whose messages leave room for less than the 1,024 bytes that it begins with. It goes on at the size in the reply, from the
/// byte where it is: the offset counts, and not the number.
#[test]
fn a_client_that_follows_the_reply() {
    for room in [512, 700, 1023] {
        for len in [1025, 1536, 5000, 8192] {
            let list = list(len);
            let config = BlockHandlerConfig { max_total_message_size: 20 + 12 + room, ..BlockHandlerConfig::default() };
            let mut handler = BlockHandler::new(config);
            let (mut size, mut nums, mut rest) = (1024, Vec::new(), &list[..]);
            loop {
                let num = (len - rest.len()) / size;
                let (block, after) = rest.split_at(size.min(rest.len()));
                let block1 = BlockValue::new(Mode::Strict, num, !after.is_empty(), size).unwrap().write(Mode::Strict);
                nums.push(num);
                match handler.intercept_request(&request(0, &block1, block)) {
                    Ok(RequestAnswer::Continue { block1 }) => (size, rest) = (block1.size(), after),
                    Ok(RequestAnswer::Handed { body, .. }) => {
                        assert!(body == list, "what is handed on is the list");
                        break;
                    }
                    other => panic!("room {room}, block {num} of {size}: {other:?}"),
                }
            }
            let meant: Vec<usize> = [0].into_iter().chain(2..len.div_ceil(512)).collect();
            assert_eq!((size, nums), (512, meant), "room {room}");
        }
    }
}
