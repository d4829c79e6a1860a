//! The frame clock: the library beside the counters that step.

use tdma_tests::clock::{join, Counters, HYPERFRAME};
use tdma_tests::library::{self, JoinAnswer, SplitAnswer};
use tdma_tests::{MALFORMED, OUT_OF_RANGE};

#[test]
fn split_and_join_over_the_whole_hyperframe() {
    let mut now = Counters::START;
    for frame in 0..HYPERFRAME {
        assert_eq!(
            library::split(frame),
            SplitAnswer::from(Ok(now)),
            "frame {frame}"
        );
        let joined = library::join(now.t1.into(), now.t2.into(), now.t3.into());
        assert_eq!(joined, JoinAnswer { refusal: 0, frame }, "{now:?}");
        now = now.next();
    }
    assert_eq!(now, Counters::START);
}

#[test]
fn every_t2_and_t3_of_some_t1_joins() {
    for t1 in [0, 1, 2, 63, 64, 1023, 1024, 2046, 2047] {
        for t2 in 0..26 {
            for t3 in 0..51 {
                let second = JoinAnswer::from(join(t1, t2, t3));
                assert_eq!(library::join(t1, t2, t3), second, "({t1}, {t2}, {t3})");
                let back = library::split(second.frame);
                assert_eq!((back.t1, back.t2, back.t3), (t1, t2, t3));
            }
        }
    }
}

#[test]
fn frames_past_the_hyperframe_are_refused() {
    let refused = SplitAnswer {
        refusal: OUT_OF_RANGE,
        ..Default::default()
    };
    for frame in [0, 1, 25, 26, 50, 51, 1326].map(|more| HYPERFRAME + more) {
        assert_eq!(library::split(frame), refused, "frame {frame}");
    }
    for frame in [2 * HYPERFRAME, 1 << 22, 1 << 31, u32::MAX - 1, u32::MAX] {
        assert_eq!(library::split(frame), refused, "frame {frame}");
    }
}

#[test]
fn counters_out_of_range_are_refused() {
    let refused = JoinAnswer {
        refusal: MALFORMED,
        frame: 0,
    };
    let odd = |least: u32| {
        [
            least,
            least + 1,
            256,
            65_536,
            1 << 31,
            u32::MAX - 1,
            u32::MAX,
        ]
    };
    let t1s = [0, 1, 1024, 2047]
        .into_iter()
        .chain(odd(2048).into_iter().filter(|&t1| t1 > 2047));
    for t1 in t1s {
        for t2 in [0, 12, 25].into_iter().chain(odd(26)) {
            for t3 in [0, 25, 50].into_iter().chain(odd(51)) {
                let out = t1 > 2047 || t2 > 25 || t3 > 50;
                assert_eq!(
                    library::join(t1, t2, t3) == refused,
                    out,
                    "({t1}, {t2}, {t3})"
                );
            }
        }
    }
}
