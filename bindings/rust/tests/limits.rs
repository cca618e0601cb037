//! Limits of frames: the limit that holds, the order of the numbers at it, and buffers that are short, exact and long.
mod common;
use common::{lent, text};
use gelmusko::{Limit, Outcome, Pass};

const LINE: &str = "01010000020400000000000000000000";

/// What a limit handed in counts as (document 02, request 7).
const HOLDS: [(u32, usize); 10] = [
    (0, 1024),
    (1, 1),
    (255, 255),
    (256, 256),
    (257, 257),
    (1023, 1023),
    (1024, 1024),
    (1025, 1024),
    (65_792, 1024),
    (u32::MAX, 1024),
];

#[test]
fn number_1_names_the_limit_that_holds() {
    for (asked, holds) in HOLDS {
        let long = Outcome::Long {
            limit: holds as u16,
        };
        let fits = text(&vec![LINE; holds]);
        let mut over = fits.clone();
        over.push(b'0');
        for more in [0, 16] {
            let (mut frames, mut answers) = (lent(16 * holds + more), lent(more));
            let limit = Limit(asked);
            assert_eq!(
                limit.type_rows(&fits, Pass::First, &mut frames, &mut answers),
                Outcome::Accepted
            );
            assert_eq!(frames[16 * holds..], lent(more)[..]);
            assert_eq!(answers, lent(more));
        }
        for bytes in [0, 16 * holds, 16 * holds + 32] {
            let (mut frames, mut answers) = (lent(bytes), lent(16));
            let limit = Limit(asked);
            assert_eq!(limit.read_file(&over, &mut frames), long);
            assert_eq!(
                limit.type_rows(&over, Pass::First, &mut frames, &mut answers),
                long
            );
            assert_eq!(
                limit.row_type(&over, Pass::First, &mut frames, &mut answers, 0),
                Err(long)
            );
            assert_eq!((frames, answers), (lent(bytes), lent(16)));
        }
        let mut frames = lent(16 * holds - 1);
        assert_eq!(Limit(asked).read_file(&fits, &mut frames), Outcome::Short);
        assert_eq!(frames, lent(16 * holds - 1));
    }
}

#[test]
fn a_file_within_two_limits_is_answered_alike() {
    let file = text(common::PAPER);
    let (mut frames, mut answers) = (lent(256), lent(256));
    let given = gelmusko::type_rows(&file, Pass::First, &mut frames, &mut answers);
    for asked in [file.len() as u32 / 33, 255, 256, 1024, 0] {
        let (mut f, mut a) = (lent(256), lent(256));
        assert_eq!(
            Limit(asked).type_rows(&file, Pass::First, &mut f, &mut a),
            given
        );
        assert_eq!((f, a), (frames.clone(), answers.clone()));
    }
}
