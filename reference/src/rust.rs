//! The Rust's side: blocks made for it, its calls recorded, its panics caught.

use std::cell::{Cell, RefCell};
use std::collections::HashSet;
use std::panic::{catch_unwind, AssertUnwindSafe};
use std::rc::Rc;
use std::sync::{Arc, Once};

use mysticeti::block_store::BlockStore;
use mysticeti::committee::{
    Authority, Committee, ProcessedTransactionHandler, QuorumThreshold, StakeAggregator, TransactionAggregator,
    VoteRangeBuilder,
};
use mysticeti::finalization_interpreter::FinalizationInterpreter;
use mysticeti::make;
use mysticeti::threshold_clock::threshold_clock_valid_non_genesis;
use mysticeti::types::{BaseStatement, BlockReference, StatementBlock, Transaction, TransactionLocator, Vote};

use crate::model::record::{number, Block, Locator, Reference, Statement};

/// A call of the handler: which one, and the locator.
#[derive(Clone, Copy, PartialEq, Eq, Debug)]
pub enum Call {
    Processed(Locator),
    Unknown(Locator),
    Duplicate(Locator),
}

/// A pending range of the aggregator.
#[derive(Clone, Copy, PartialEq, Eq, PartialOrd, Ord, Debug)]
pub struct PendingRange {
    pub block: Reference,
    pub start: u64,
    pub end: u64,
    pub voters: u128,
    pub stake: u64,
}

/// A handler in place of the set: it records every call in order.
struct Recorder(Rc<RefCell<Vec<Call>>>);

impl ProcessedTransactionHandler<TransactionLocator> for Recorder {
    fn transaction_processed(&mut self, k: TransactionLocator) {
        self.0.borrow_mut().push(Call::Processed(locator(&k)));
    }

    fn duplicate_transaction(&mut self, k: TransactionLocator, _from: u64) {
        self.0.borrow_mut().push(Call::Duplicate(locator(&k)));
    }

    fn unknown_transaction(&mut self, k: TransactionLocator, _from: u64) {
        self.0.borrow_mut().push(Call::Unknown(locator(&k)));
    }
}

/// The aggregator with its recorder.
struct Aggregator {
    calls: Rc<RefCell<Vec<Call>>>,
    inner: TransactionAggregator<QuorumThreshold, Recorder>,
}

impl Aggregator {
    fn new() -> Aggregator {
        let calls = Rc::new(RefCell::new(Vec::new()));
        let inner = TransactionAggregator::with_handler(Recorder(calls.clone()));
        Aggregator { calls, inner }
    }

    /// The calls that a block brings; those for the filler are left out.
    fn process(&mut self, committee: &Committee, block: &Block) -> Vec<Call> {
        let block = make_block(block);
        let processed = self.inner.process_block(&block, None, committee);
        let mut calls = self.calls.take();
        let told = calls.iter().filter_map(|call| match call {
            Call::Processed(locator) => Some(*locator),
            _ => None,
        });
        assert!(told.eq(processed.iter().map(locator)), "process_block answers what its handler heard");
        calls.retain(|call| !matches!(call, Call::Unknown(locator) if *locator == FILLER));
        calls
    }
}

/// A locator that no list names. An accept of it brings an unknown call and nothing else.
const FILLER: Locator = Locator { block: Reference { author: 0, round: u64::MAX, digest: [0xee; 32] }, offset: 7 };

pub struct RustSide {
    committee: Arc<Committee>,
    store: BlockStore,
    /// Fed whole blocks.
    whole: Aggregator,
    /// Fed a block's shares and then its votes one by one, so that the statement of each call is known.
    parts: Aggregator,
}

/// Whether the Rust stops at these statements: rejects and empty ranges are outside its domain.
pub fn in_domain(statement: &Statement) -> bool {
    match statement {
        Statement::Reject(..) => false,
        Statement::Range(_, start, end) => start < end,
        _ => true,
    }
}

impl RustSide {
    /// `Committee::new`, or what it panics with.
    pub fn new(stakes: &[u64]) -> Result<RustSide, String> {
        let authorities = stakes.iter().map(|stake| Authority::test_from_stake(*stake)).collect();
        let committee = caught(|| Committee::new(authorities))?;
        Ok(RustSide { committee, store: BlockStore::default(), whole: Aggregator::new(), parts: Aggregator::new() })
    }

    pub fn is_quorum(&self, stake: u64) -> bool {
        self.committee.is_quorum(stake)
    }

    pub fn is_valid(&self, stake: u64) -> bool {
        self.committee.is_valid(stake)
    }

    /// `StakeAggregator::add` of each voter in turn, from new: the answers and who has voted then, or what it panics with.
    pub fn adds(&self, voters: &[u64]) -> Result<(Vec<bool>, u128), String> {
        caught(|| {
            let mut aggregator = StakeAggregator::<QuorumThreshold>::new();
            let answers = voters.iter().map(|voter| aggregator.add(*voter, &self.committee)).collect();
            (answers, aggregator.voters().fold(0, |set, voter| set | 1 << voter))
        })
    }

    pub fn clock(&self, block: &Block) -> Result<bool, String> {
        caught(|| threshold_clock_valid_non_genesis(&make_block(block), &self.committee))
    }

    /// `StatementBlock::verify`, whose digest and signature are taken: the text of its refusal.
    pub fn verify(&self, block: &Block) -> Result<Result<(), String>, String> {
        caught(|| make_block(block).verify(&self.committee).map_err(|report| report.0))
    }

    /// `process_block` of an accepted block: its calls in order, each with its statement. Statements outside the Rust's domain
    /// are fillers, which do nothing but keep the offsets of the shares.
    pub fn feed(&mut self, block: &Block) -> Result<Vec<(u64, Call)>, String> {
        let mut block = block.clone();
        self.store.insert_block(make_block(&block));
        for statement in block.statements.iter_mut().filter(|statement| !in_domain(statement)) {
            *statement = Statement::Accept(FILLER);
        }
        caught(|| self.feed_in_domain(&block))
    }

    fn feed_in_domain(&mut self, block: &Block) -> Vec<(u64, Call)> {
        let whole = self.whole.process(&self.committee, block);
        let mut shares = block.clone();
        for statement in shares.statements.iter_mut().filter(|statement| !matches!(statement, Statement::Share(_))) {
            *statement = Statement::Accept(FILLER);
        }
        let mut calls: Vec<(u64, Call)> = Vec::new();
        calls.extend(self.parts.process(&self.committee, &shares).into_iter().map(|call| (0, call)));
        for (index, statement) in block.statements.iter().enumerate() {
            if !matches!(statement, Statement::Share(_)) {
                let vote = Block { statements: vec![statement.clone()], ..block.clone() };
                let told = self.parts.process(&self.committee, &vote);
                calls.extend(told.into_iter().map(|call| (index as u64, call)));
            }
        }
        assert!(calls.iter().map(|(_, call)| *call).eq(whole), "a block in parts brings the calls of the whole");
        calls
    }

    /// `process_block` of one block as it is, with whatever it does outside its domain.
    pub fn feed_as_it_is(&mut self, block: &Block) -> Result<Vec<Call>, String> {
        self.store.insert_block(make_block(block));
        caught(|| self.whole.process(&self.committee, block))
    }

    /// Puts blocks into the store alone.
    pub fn store_all(&mut self, blocks: &[Block]) {
        blocks.iter().for_each(|block| self.store.insert_block(make_block(block)));
    }

    /// The pending ranges, by reference and start.
    pub fn pending(&self) -> Vec<PendingRange> {
        let state = self.whole.inner.state();
        let mut reader = Words(&state);
        let mut pending = Vec::new();
        for _ in 0..reader.word() {
            let block = reader.reference();
            for _ in 0..reader.word() {
                reader.word(); // the key, which is the start
                let (start, end, kept) = (reader.word(), reader.word(), reader.take(1)[0]);
                assert_eq!(kept, 1, "no range is kept without votes");
                let voters = reader.word() as u128 | (reader.word() as u128) << 64;
                pending.push(PendingRange { block, start, end, voters, stake: reader.word() });
            }
        }
        pending.sort();
        pending
    }

    /// `finalized_tx_certifying_blocks`, sorted by 01's order.
    pub fn final_list(&self) -> Result<Vec<(Locator, Vec<Reference>)>, String> {
        let finals =
            caught(|| FinalizationInterpreter::new(&self.store, self.committee.clone()).finalized_tx_certifying_blocks())?;
        let each = finals.iter().map(|(k, blocks)| {
            let mut blocks: Vec<Reference> = blocks.iter().map(reference).collect();
            blocks.sort();
            (locator(k), blocks)
        });
        let mut list: Vec<(Locator, Vec<Reference>)> = each.collect();
        list.sort();
        Ok(list)
    }

    /// A stored block's time; it is 0 where none was given.
    pub fn creation_time(&self, reference: &Reference) -> Option<u128> {
        self.store.get_block(make_reference(reference)).map(|block| block.meta_creation_time_ns())
    }

    /// The stake of the blocks' authors, each once.
    pub fn total_stake(&self, blocks: &[Reference]) -> u64 {
        self.committee.get_total_stake(&blocks.iter().map(|block| block.author).collect::<HashSet<u64>>())
    }

    /// The interpreter's list as it comes, unsorted, and its length: for timing.
    pub fn final_count(&self) -> usize {
        FinalizationInterpreter::new(&self.store, self.committee.clone()).finalized_tx_certifying_blocks().len()
    }
}

/// Blocks made beforehand, so that feeding can be timed alone.
pub struct Prepared(Vec<mysticeti::data::Data<StatementBlock>>);

impl Prepared {
    pub fn new(blocks: &[Block]) -> Prepared {
        Prepared(blocks.iter().map(make_block).collect())
    }

    /// `process_block` of each, from fresh: the number of calls.
    pub fn feed(&self, side: &RustSide) -> usize {
        let mut aggregator = Aggregator::new();
        for block in &self.0 {
            aggregator.inner.process_block(block, None, &side.committee);
        }
        let calls = aggregator.calls.borrow().len();
        calls
    }

    /// The same, each block above round 0 verified and each put into a store.
    pub fn feed_checked(&self, side: &RustSide) -> usize {
        let (mut aggregator, mut store) = (Aggregator::new(), BlockStore::default());
        for block in &self.0 {
            assert!(block.round() == 0 || block.verify(&side.committee).is_ok());
            store.insert_block(block.clone());
            aggregator.inner.process_block(block, None, &side.committee);
        }
        let calls = aggregator.calls.borrow().len();
        calls
    }
}

/// What the Rust's digest comparison says of two references, by `cmp` and by `==`.
pub fn compared(a: &Reference, b: &Reference) -> (std::cmp::Ordering, bool) {
    let (a, b) = (make_reference(a), make_reference(b));
    (a.cmp(&b), a == b)
}

fn make_reference(reference: &Reference) -> BlockReference {
    make::reference(reference.author, reference.round, reference.digest)
}

fn make_block(block: &Block) -> mysticeti::data::Data<StatementBlock> {
    let locator = |locator: &Locator| make::locator(make_reference(&locator.block), locator.offset);
    let statement = |statement: &Statement| match statement {
        Statement::Share(payload) => BaseStatement::Share(Transaction::new(payload.clone())),
        Statement::Accept(accepted) => BaseStatement::Vote(locator(accepted), Vote::Accept),
        Statement::Reject(rejected, second) => {
            BaseStatement::Vote(locator(rejected), Vote::Reject(second.as_ref().map(locator)))
        }
        Statement::Range(reference, start, end) => {
            BaseStatement::VoteRange(make::range(make_reference(reference), *start..*end))
        }
    };
    let includes = block.includes.iter().map(make_reference).collect();
    let statements = block.statements.iter().map(statement).collect();
    make::block(make_reference(&block.reference), block.marked, includes, statements, block.time.unwrap_or(0) as u128)
}

fn reference(reference: &BlockReference) -> Reference {
    Reference { author: reference.authority, round: reference.round, digest: reference.digest.0 }
}

fn locator(locator: &TransactionLocator) -> Locator {
    Locator::new(reference(locator.block()), locator.offset())
}

/// What the stand-in of serde wrote.
struct Words<'a>(&'a [u8]);

impl<'a> Words<'a> {
    fn take(&mut self, length: usize) -> &'a [u8] {
        let (taken, rest) = self.0.split_at(length);
        self.0 = rest;
        taken
    }

    fn word(&mut self) -> u64 {
        number(self.take(8))
    }

    fn reference(&mut self) -> Reference {
        let (author, round) = (self.word(), self.word());
        Reference { author, round, digest: self.take(32).try_into().unwrap() }
    }
}

thread_local! {
    /// Whether the Rust is running on this thread, and the text of its last panic.
    static RUNNING: Cell<bool> = const { Cell::new(false) };
    static PANIC: RefCell<String> = const { RefCell::new(String::new()) };
}

static HOOK: Once = Once::new();

/// The answer, or the text of the panic. The hook prints nothing while the Rust runs.
fn caught<T>(run: impl FnOnce() -> T) -> Result<T, String> {
    HOOK.call_once(|| {
        let usual = std::panic::take_hook();
        std::panic::set_hook(Box::new(move |info| match RUNNING.get() {
            true => PANIC.with(|text| *text.borrow_mut() = payload_text(info.payload())),
            false => usual(info),
        }));
    });
    RUNNING.set(true);
    let answer = catch_unwind(AssertUnwindSafe(run));
    RUNNING.set(false);
    answer.map_err(|_| PANIC.with(|text| text.take()))
}

fn payload_text(payload: &dyn std::any::Any) -> String {
    match (payload.downcast_ref::<&str>(), payload.downcast_ref::<String>()) {
        (Some(text), _) => text.to_string(),
        (_, Some(text)) => text.clone(),
        _ => "a panic without text".into(),
    }
}

/// The ranges that `VoteRangeBuilder` makes of offsets.
pub fn vote_ranges(offsets: &[u64]) -> Option<Vec<(u64, u64)>> {
    let mut builder = VoteRangeBuilder::default();
    let mut ranges: Vec<_> = offsets.iter().filter_map(|offset| builder.add(*offset)).collect();
    ranges.extend(builder.finish());
    Some(ranges.iter().map(|range| (range.start, range.end)).collect())
}
