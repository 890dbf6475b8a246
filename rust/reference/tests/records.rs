//! Records read and written.

mod common;
use common::*;
use reference::*;

#[test]
fn records_read_and_written() {
    let requests = [
        Request {
            code: 0x0807_0605_0403_0201,
            last: 3,
            ..sell(70_000)
        },
        mirror(sell(1)),
        withdraw(1, 256),
        guarantee(2, GREATEST_GUARANTEE),
        simple(kind::OPEN_BATCH),
        simple(kind::UNDO),
        simple(kind::KEEP),
        simple(kind::CLOSE_GATE),
        schedule(2, 64, 5, 400_000),
        simple(kind::SETTLE),
        ask(sell(70_000)),
        commit(Request {
            code: u64::MAX,
            account: 255,
            ..buy(u32::MAX)
        }),
    ];
    for request in requests {
        let bytes = record(&request);
        assert_eq!(read(&bytes), Ok(request));
        let mut buffer = vec![7; bytes.len() + 2];
        assert_eq!(write(&request, &mut buffer), accepted(0));
        assert_eq!(buffer[..bytes.len()], bytes);
        assert_eq!(buffer[bytes.len()..], [7, 7]);
        let mut short = vec![7; bytes.len() - 1];
        assert_eq!(write(&request, &mut short), refused(10));
        assert!(short.iter().all(|&byte| byte == 7));
        assert!(read(&bytes[..bytes.len() - 1]).is_err());
    }
    let register = record(&requests[0]);
    let expected = [
        0xFF, 0, 1, 1, 2, 1, 2, 3, 4, 5, 6, 7, 8, 1, 1, 3, 0x70, 0x11, 1, 0,
    ];
    assert_eq!(register, expected);
    // An ask and a commit have the same map and length, and another kind.
    for kind in [kind::ASK, kind::COMMIT] {
        let other = record(&Request {
            kind,
            ..requests[0]
        });
        assert_eq!(other[..2], register[..2]);
        assert_eq!(other[2], kind);
        assert_eq!(other[3..], register[3..]);
        assert_eq!(layout(kind), Some((0x00FF, 20)));
    }
}

#[test]
fn writer_leaves_out_foreign_fields_and_checks_no_range() {
    let request = Request {
        number: 0,
        account: 255,
        price: 7,
        ..simple(kind::WITHDRAW)
    };
    assert_eq!(record(&request), [3, 1, 3, 255, 0, 0]);
    assert_eq!(write(&simple(0), &mut [0; 20]), refused(3));
    assert_eq!(write(&simple(11), &mut []), refused(3));
    assert_eq!(write(&simple(14), &mut [0; 20]), refused(3));
    let request = Request {
        number: 7,
        ..ask(sell(1))
    };
    assert_eq!(record(&request), record(&ask(sell(1))));
}

#[test]
fn reader_refuses_in_order() {
    assert_eq!(read(&[]), Err(refused(2)));
    assert_eq!(read(&[1, 0]), Err(refused(2)));
    assert_eq!(read(&[0, 0, 5]), Err(refused(2)));
    assert_eq!(read(&[1, 0x20, 0]), Err(refused(2)));
    assert_eq!(read(&[1, 0x40, 5]), Err(refused(2)));
    assert_eq!(read(&[1, 0x80, 5]), Err(refused(2)));
    assert_eq!(read(&[1, 0x10, 0]), Err(refused(3)));
    assert_eq!(read(&[1, 0, 11]), Err(refused(3)));
    assert_eq!(read(&[0xFF, 0, 14]), Err(refused(3)));
    assert_eq!(read(&[0xFF, 0, 12]), Err(refused(5)));
    assert_eq!(read(&[1, 0, 13]), Err(with(4, 7, 0)));
    assert_eq!(read(&[0xFD, 0x01, 12]), Err(with(4, 1, 1)));
    assert_eq!(read(&[3, 0x10, 5, 0]), Err(with(4, 0, 2)));
    assert_eq!(read(&[1, 0, 1]), Err(with(4, 7, 0)));
    assert_eq!(read(&[0x0D, 0x01, 3]), Err(with(4, 1, 2)));
    assert_eq!(read(&[1, 0, 5, 0]), Err(refused(5)));
    assert_eq!(read(&[3, 1, 3, 1, 1]), Err(refused(5)));
}
