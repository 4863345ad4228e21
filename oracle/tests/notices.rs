//! The comparison notices what it is there for: each fault of a step, put in here on purpose, is
//! counted as a difference.

use oracle::calls::{compare, Call};
use oracle::lent::{Lent, Table};
use oracle::library::Answer;
use oracle::report::Report;

/// What a faulty library does beside what is expected.
#[derive(Copy, Clone, Debug, PartialEq)]
enum Fault {
    None,
    OtherNumber,
    OtherValue,
    InputChanged,
    ResultWrong,
    WrittenPastTheNeed,
    WrittenPastTheEnd,
    WrittenBeforeTheStart,
    WrittenOnARefusal,
    WorkLeftDirty,
}

/// A step that copies its input and zeroes as much work; refused with 9 where room is short.
#[derive(Clone)]
struct CopyCall {
    fault: Fault,
    input: Lent<u32>,
    result: Lent<u32>,
    work: Lent<u32>,
}

fn call(fault: Fault) -> CopyCall {
    let room = if fault == Fault::WrittenOnARefusal {
        2
    } else {
        5
    };
    CopyCall {
        fault,
        input: Lent::new(&[7, 8, 9]),
        result: Lent::new(&vec![1; room]),
        work: Lent::new(&[2; 5]),
    }
}

impl Call for CopyCall {
    type Outcome = Answer;

    fn step(&self) -> &'static str {
        "copy"
    }

    fn library(&mut self) -> Answer {
        let mut answer = self.expected();
        let (start, len) = (self.result.start_mut(), self.result.len());
        match self.fault {
            Fault::None => {}
            Fault::OtherNumber => answer.number = 5,
            Fault::OtherValue => answer.third = 1,
            Fault::InputChanged => self.input.all_mut()[2] = 0,
            Fault::ResultWrong => self.result.all_mut()[0] ^= 1,
            Fault::WrittenPastTheNeed => self.result.all_mut()[3] = 0,
            Fault::WrittenPastTheEnd => unsafe { *start.add(len) = 0 },
            Fault::WrittenBeforeTheStart => unsafe { *start.sub(1) = 0 },
            Fault::WrittenOnARefusal => self.result.all_mut()[0] = 7,
            Fault::WorkLeftDirty => self.work.all_mut()[1] = 2,
        }
        answer
    }

    fn expected(&mut self) -> Answer {
        let len = self.input.len();
        if self.result.len() < len {
            return Answer::short(len, 0);
        }
        self.result.all_mut()[..len].copy_from_slice(self.input.all());
        self.work.all_mut()[..len].fill(0);
        Answer::of(len, 0, 0)
    }

    fn table_difference(&self, other: &Self) -> Option<String> {
        [
            self.input.difference(&other.input),
            self.result.difference(&other.result),
            self.work.difference(&other.work),
        ]
        .into_iter()
        .flatten()
        .next()
    }

    fn told(&self) -> String {
        format!("{:?}", self.fault)
    }
}

#[test]
fn each_fault_is_a_difference() {
    for fault in [
        Fault::OtherNumber,
        Fault::OtherValue,
        Fault::InputChanged,
        Fault::ResultWrong,
        Fault::WrittenPastTheNeed,
        Fault::WrittenPastTheEnd,
        Fault::WrittenBeforeTheStart,
        Fault::WrittenOnARefusal,
        Fault::WorkLeftDirty,
    ] {
        let mut report = Report::default();
        compare(&call(fault), &mut report);
        compare(&call(Fault::None), &mut report);
        assert_eq!(
            (report.cases("copy"), report.differences()),
            (2, 1),
            "{fault:?}"
        );
    }
}
