//! How often each operation, and each lane of a heat, gave each reply, and whether a run met all that can be given.

use crate::answer::Answer;
use crate::call::Operation;

/// A run of this many calls must meet every reply of every operation and of a lane.
pub const WHOLE_RUN: u64 = 20_000;

const REPLIES: usize = 22;
const COLUMNS: usize = Operation::ALL.len() + 1;

/// Whose replies are counted in one column of the table.
#[derive(Clone, Copy)]
enum Replies {
    Of(Operation),
    /// Of the lanes of accepted heats; those of the others have no reply.
    OfLanes,
}

impl Replies {
    fn all() -> impl Iterator<Item = Replies> {
        Operation::ALL.into_iter().map(Replies::Of).chain([Replies::OfLanes])
    }

    fn column(self) -> usize {
        match self {
            Replies::Of(operation) => operation as usize - 1,
            Replies::OfLanes => COLUMNS - 1,
        }
    }

    fn name(self) -> &'static str {
        match self {
            Replies::Of(operation) => operation.name(),
            Replies::OfLanes => "a lane",
        }
    }

    /// "CHECK gives 1 to 8; BUILD adds 11, 13, 14; the two others give all." Document 02, No. 2: "16 .. then 1 to 8, 11,
    /// 13, 14 for the whole call .. then per lane 17 .. 9, 10, 12, 15". No. 5: "7 is no longer given." No. 7: "5 .. 20 ..
    /// 18 .. 19 .. then 21 .. then 15".
    fn can_be(self, reply: usize) -> bool {
        match self {
            _ if reply == 7 => false,
            Replies::Of(Operation::Check) => reply <= 8,
            Replies::Of(Operation::Build) => reply <= 8 || matches!(reply, 11 | 13 | 14),
            Replies::Of(Operation::Rewrite | Operation::Account) => reply <= 15,
            Replies::Of(Operation::Show) => reply == 0,
            Replies::Of(Operation::Heat) => reply <= 8 || matches!(reply, 11 | 13 | 14 | 16),
            Replies::Of(Operation::Import) => matches!(reply, 0 | 5 | 15 | 18..=21),
            Replies::OfLanes => matches!(reply, 0 | 9 | 10 | 12 | 15 | 17),
        }
    }
}

#[derive(Default)]
pub struct Tally {
    counts: [[u64; REPLIES]; COLUMNS],
    /// SHOW has one reply; what can differ is whether the part is empty.
    empty_parts: u64,
}

impl Tally {
    pub fn add(&mut self, answer: &Answer) {
        self.counts[Replies::Of(answer.operation).column()][answer.reply as usize] += 1;
        self.empty_parts += u64::from(answer.operation == Operation::Show && answer.part.is_empty());
        for lane in answer.lent.lanes.iter().filter(|_| answer.reply == 0) {
            self.counts[Replies::OfLanes.column()][lane.reply as usize] += 1;
        }
    }

    fn count(&self, replies: Replies, reply: usize) -> u64 {
        self.counts[replies.column()][reply]
    }

    /// The replies that can be given but were not, in words.
    pub fn never_met(&self) -> Vec<String> {
        let mut never = Vec::new();
        for replies in Replies::all() {
            let unmet = (0..REPLIES).filter(|reply| replies.can_be(*reply) && self.count(replies, *reply) == 0);
            never.extend(unmet.map(|reply| format!("{} with reply {reply}", replies.name())));
        }
        if self.empty_parts == 0 {
            never.push("SHOW with an empty part".to_string());
        }
        if self.empty_parts == self.count(Replies::Of(Operation::Show), 0) {
            never.push("SHOW with a part that is not empty".to_string());
        }
        never
    }

    /// A table with one line for each reply.
    pub fn table(&self) -> String {
        let names: String = Replies::all().map(|replies| format!("{:>9}", replies.name())).collect();
        let mut table = format!("reply{names}\n");
        for reply in 0..REPLIES {
            let count = |replies: Replies| match replies.can_be(reply) {
                true => format!("{:>9}", self.count(replies, reply)),
                false => format!("{:>9}", "."),
            };
            table += &format!("{reply:>5}{}\n", Replies::all().map(count).collect::<String>());
        }
        table + &format!("SHOW handed back {} empty parts\n", self.empty_parts)
    }
}
