//! The account: what became of every counted transaction, and the packet that
//! is open.

/// The most data bytes of a fragment under any fragment maximum.
pub const LONGEST_FRAGMENT: u64 = 240;
/// The total of a full account.
pub const HIGHEST_TOTAL: u64 = 4_294_967_295;

/// The rows of the grid.
pub const FATES: usize = 10;
/// The columns of the grid.
pub const COLUMNS: usize = 3;
/// The numbers of an account.
pub const NUMBERS: usize = FATES * COLUMNS + 5;

/// The column of packets.
pub const PACKETS: usize = 0;
/// The column of fragments.
pub const FRAGMENTS: usize = 1;
/// The column of bytes, without fill.
pub const BYTES: usize = 2;

/// What becomes of a packet or of a single fragment; the rows of the grid.
#[derive(Clone, Copy, Debug, PartialEq, Eq)]
pub enum Fate {
    /// Sent.
    Sent,
    /// Ended by a First before its Last.
    Superseded,
    /// Ended by another command with F and L set.
    Flushed,
    /// Ended by a fragment of a length that is not allowed, or by a wrong check
    /// byte.
    Broken,
    /// Discarded, its total too long.
    Over,
    /// Discarded, its total too short.
    Short,
    /// Discarded, the link down at its Last.
    LinkDown,
    /// A fragment of no packet.
    Aborted,
    /// A fragment of a length that is not allowed.
    BadLength,
    /// A transaction of any command whose check byte is wrong.
    BadCheck,
}

impl Fate {
    /// Whether packets are counted under it.
    pub fn has_packets(self) -> bool {
        !matches!(self, Fate::Aborted | Fate::BadLength | Fate::BadCheck)
    }

    /// Whether bytes are counted under it.
    pub fn has_bytes(self) -> bool {
        !matches!(self, Fate::BadLength | Fate::BadCheck)
    }
}

/// The rows of the grid in their order.
pub const ROWS: [Fate; FATES] = [
    Fate::Sent,
    Fate::Superseded,
    Fate::Flushed,
    Fate::Broken,
    Fate::Over,
    Fate::Short,
    Fate::LinkDown,
    Fate::Aborted,
    Fate::BadLength,
    Fate::BadCheck,
];

/// An account; any numbers may be handed in.
#[derive(Clone, Copy, Debug, Default, PartialEq, Eq)]
pub struct Account {
    /// Packets, fragments and bytes of each fate.
    pub grid: [[u64; COLUMNS]; FATES],
    /// Fragments of the open packet; one is open where this is not zero.
    pub open_fragments: u64,
    /// Bytes of the open packet.
    pub open_bytes: u64,
    /// Commands taken.
    pub taken: u64,
    /// Commands refused.
    pub refused: u64,
    /// All counted transactions.
    pub total: u64,
}

impl Account {
    /// The account of these numbers, in the order of the fields.
    pub fn of_numbers(numbers: [u64; NUMBERS]) -> Account {
        let mut rest = numbers.into_iter();
        let mut next = || rest.next().unwrap_or_default();
        Account {
            grid: std::array::from_fn(|_| std::array::from_fn(|_| next())),
            open_fragments: next(),
            open_bytes: next(),
            taken: next(),
            refused: next(),
            total: next(),
        }
    }

    /// The numbers of the account, in the order of the fields.
    pub fn numbers(&self) -> [u64; NUMBERS] {
        let beside = [self.open_fragments, self.open_bytes, self.taken, self.refused, self.total];
        let mut all = self.grid.into_iter().flatten().chain(beside);
        std::array::from_fn(|_| all.next().unwrap_or_default())
    }
}

/// Whether an account is sound, whatever the fragment maximum.
pub fn is_sound(account: &Account) -> bool {
    account.total <= HIGHEST_TOTAL
        && lines_sound(account)
        && ROWS.iter().all(|fate| row_sound(*fate, account.grid[*fate as usize]))
        && open_sound(account)
}

/// Whether the fragments of the grid and the transactions beside it make up
/// the total. They are taken from it one after the other, since a sum of any
/// numbers may not fit.
fn lines_sound(account: &Account) -> bool {
    let in_grid = account.grid.iter().map(|row| row[FRAGMENTS]);
    let beside = [account.open_fragments, account.taken, account.refused];
    in_grid.chain(beside).try_fold(account.total, u64::checked_sub) == Some(0)
}

/// Whether a row is sound whose fragments are at most the highest total.
fn row_sound(fate: Fate, row: [u64; COLUMNS]) -> bool {
    row[PACKETS] <= row[FRAGMENTS]
        && row[BYTES] <= LONGEST_FRAGMENT * row[FRAGMENTS]
        && (fate.has_packets() || row[PACKETS] == 0)
        && (fate.has_bytes() || row[BYTES] == 0)
}

/// Whether the open packet is sound whose fragments are at most the highest
/// total.
fn open_sound(account: &Account) -> bool {
    account.open_bytes >= account.open_fragments
        && account.open_bytes <= LONGEST_FRAGMENT * account.open_fragments
}
