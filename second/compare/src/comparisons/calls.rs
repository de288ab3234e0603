//! The exported comparison: what it returns, what it puts down, and what it leaves as it was.

use crate::library::{COMPARISON_SIZE, TOO_SHORT};
use crate::sides::{agree_bytes, report_numbers, Agreed, Difference};
use second::Comparison;

/// What stands in an answer before a call.
const BEFORE: u32 = 0x5A5A_5A5A;

/// The exported function on two certificates and an answer, or what stands in for it in a test.
pub type Exported = fn(&[u8], &[u8], &mut [u32]) -> u32;

/// The numbers of an answer.
pub fn answer_numbers(answer: Comparison) -> [u32; COMPARISON_SIZE] {
    let [number, a, b, count] = report_numbers(answer.report());
    let said = match answer {
        Comparison::Refused(_) => 0,
        Comparison::Equal => 1,
        Comparison::First => 2,
        Comparison::Second => 3,
        Comparison::Neither => 4,
    };
    [number, a, b, count, said]
}

/// Two certificates in an order that is told, and the second checker's answer.
pub struct Call<'a> {
    pub order: &'a str,
    pub both: [&'a [u8]; 2],
    pub answer: Comparison,
}

impl Call<'_> {
    /// Makes the call with answers of 0 to 6 numbers; tells how many calls that were.
    pub fn make_every(&self, exported: Exported) -> Agreed<u64> {
        let sizes = 0..=COMPARISON_SIZE + 1;
        for size in sizes.clone() {
            self.make(exported, size)?;
        }
        Ok(sizes.count() as u64)
    }

    /// Makes the call with an answer of so many numbers. One that is too short gets 255 and stays; of a longer one the
    /// numbers behind the due ones stay. The certificates always do.
    pub fn make(&self, exported: Exported, size: usize) -> Agreed<()> {
        let (due_result, due) = self.due(size);
        let [first, second] = self.both;
        let before = self.both.map(<[u8]>::to_vec);
        let mut put = vec![BEFORE; size];
        let result = exported(first, second, &mut put);
        let told = || format!("compare {} with an answer of {size} numbers", self.order);
        if (due_result, &due) != (result, &put) {
            let words = |result: u32, put: &[u32]| format!("{put:?} (returned {result})");
            return Err(Box::new(Difference {
                call: told(),
                second: words(due_result, &due),
                library: words(result, &put),
            }));
        }
        agree_bytes(told, &before[0], first)?;
        agree_bytes(told, &before[1], second)
    }

    /// What the call must return, and an answer of so many numbers after it.
    fn due(&self, size: usize) -> (u32, Vec<u32>) {
        let mut due = vec![BEFORE; size];
        let result = match due.get_mut(..COMPARISON_SIZE) {
            Some(part) => {
                part.copy_from_slice(&answer_numbers(self.answer));
                part[0]
            }
            None => TOO_SHORT,
        };
        (result, due)
    }
}
