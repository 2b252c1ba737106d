//! A small model in place of the port's library, to test the comparison: mistakes can be planted
//! in it.

mod charges;
mod mistake;
mod registry;
mod sound;
mod threads;

use crate::area::{self, BYTES, OBJECTS, THREADS, Table};
use crate::port::{IMAGE_BYTES, Port};
use carv_compare::board::call::{Call, Op};
use carv_compare::board::reference::ANSWER_WORDS;
use carv_oracle::account::PERIOD;
use mistake::planted;

pub use mistake::{Mistake, plant};

/// The values of an accepted call, or the number of its refusal.
type Done = Result<Vec<u64>, u64>;

fn ask(number: u64, yes: bool) -> Result<(), u64> {
    if yes { Ok(()) } else { Err(number) }
}

/// A board in memory.
struct Model(Table);

/// What a call is lent.
struct Lent<'a> {
    area: &'a mut [u8],
    out: &'a mut [u64],
}

impl Lent<'_> {
    /// Answers a call that asks question 1 first.
    fn serve(self, call: impl FnOnce(&mut Model) -> Done) -> u64 {
        let Self { area, out } = self;
        if !(answer_fits(out) && sound::is_sound(area)) {
            return 1;
        }
        let Some(table) = area::read(area) else {
            return 1;
        };
        let before = (table.objects.len(), table.threads.len());
        let mut model = Model(table);
        let done = call(&mut model);
        let stale = [
            OBJECTS.row(before.0.saturating_sub(1)),
            THREADS.row(before.1.saturating_sub(1)),
        ];
        let stale = stale.map(|place| (place, area::word(area, place)));
        if !planted(Mistake::StateHandedBack) {
            area::write(&model.0, area);
        }
        if planted(Mistake::RowNotCleared) && model.0.objects.len() < before.0 {
            area::set_word(area, stale[0].0, stale[0].1);
        }
        if planted(Mistake::ThreadRowNotCleared) && model.0.threads.len() < before.1 {
            area::set_word(area, stale[1].0, stale[1].1);
        }
        answer(done, out)
    }

    fn open(self, cpu: u64, memory: u64) -> u64 {
        let Self { area, out } = self;
        if area.len() != BYTES || !answer_fits(out) {
            return 1;
        }
        if cpu > PERIOD {
            return 2;
        }
        let rest = area[OBJECTS.row(1) * 8..].to_vec();
        area::write(&threads::opening(cpu, memory), area);
        if planted(Mistake::OpeningKeepsOldRows) {
            area[OBJECTS.row(1) * 8..].copy_from_slice(&rest);
        }
        0
    }
}

fn answer(done: Done, out: &mut [u64]) -> u64 {
    match done {
        Ok(values) => {
            let words = values.len().min(out.len());
            out[..words].copy_from_slice(&values[..words]);
            if planted(Mistake::AnswerPastItsWords) {
                out[ANSWER_WORDS - 1] = 0;
            }
            0
        }
        Err(number) => {
            if planted(Mistake::AnswerOnRefusal) {
                out[0] = 0;
            }
            number
        }
    }
}

fn answer_fits(out: &[u64]) -> bool {
    out.len() == ANSWER_WORDS || planted(Mistake::AnswerLengthNotAsked)
}

/// See [`Port::fill_image`].
pub(crate) fn fill_image(image: &mut [u8]) -> u64 {
    if image.len() != IMAGE_BYTES {
        return u64::from(!planted(Mistake::ImageCallLengthNotAsked));
    }
    if !planted(Mistake::ImageCallFillsNothing) {
        fill(image);
    }
    0
}

/// The image of a new thread, in bytes of its length.
fn fill(image: &mut [u8]) {
    let end = if planted(Mistake::ImageWithoutItsLastStep) {
        IMAGE_BYTES - 8
    } else {
        IMAGE_BYTES
    };
    image[..end].fill(0);
    for (place, byte) in [
        (0, 0x7f),
        (1, 0x03),
        (24, 0x80),
        (25, 0x1f),
        (28, 0xbf),
        (29, 0xff),
    ] {
        image[place] = byte;
    }
    if planted(Mistake::ImageOfOtherBytes) {
        image[28] = 0xff;
    }
    if planted(Mistake::ImageWordsExchanged) {
        for place in 0..8 {
            image.swap(place, 24 + place);
        }
    }
}

/// See [`Port::is_sound`].
pub(crate) fn is_sound(area: &[u8]) -> bool {
    sound::is_sound(area)
}

/// See [`Port::make`].
pub(crate) fn make(call: Call, Port { area, out, image }: &mut Port) -> u64 {
    let lent = Lent { area, out };
    match call {
        Call::Open { cpu, memory } => lent.open(cpu, memory),
        Call::CreateUserThread { id, budget, stack } => {
            create_user_thread(lent, id, budget, stack, image)
        }
        _ => lent.serve(|model| model.make(call)),
    }
}

fn create_user_thread(lent: Lent, id: u64, budget: u64, stack: bool, image: &mut [u8]) -> u64 {
    let fits = image.len() == IMAGE_BYTES;
    if !fits && planted(Mistake::ImageWrittenAtAnotherLength) {
        image.fill(0);
    }
    if !fits && !planted(Mistake::ImageLengthNotAsked) {
        return 1;
    }
    let number = lent.serve(|model| model.create_user_thread(id, budget, stack));
    let accepted = number == 0 && !planted(Mistake::ImageNotFilled);
    if fits && (accepted || planted(Mistake::ImageOnRefusal)) {
        fill(image);
    }
    number
}

impl Model {
    /// Makes a call that is lent area and answer words alone.
    fn make(&mut self, call: Call) -> Done {
        match (call.op(), &call.arguments()[..]) {
            (Op::Create, &[kind, payer, backing]) => self.create(kind, payer, backing == 1),
            (Op::Insert, &[kind, payer, bytes]) => self.insert(kind, payer, bytes),
            (Op::CreateBudget, &[parent, cpu, memory, time]) => {
                self.create_budget(parent, cpu, memory, time)
            }
            (Op::ChargeMore, &[id, bytes]) => self.charge_more(id, bytes),
            (Op::Uncharge, &[id, bytes]) => self.uncharge(id, bytes),
            (Op::Remove, &[id, time]) => self.remove(id, time),
            (Op::Refill, &[id, time]) => self.refill(id, time),
            (Op::ChargeCpu, &[id, ns, time]) => self.charge_cpu(id, ns, time),
            (Op::PaysForAnything, &[id]) => Ok(vec![self.pays(id).into()]),
            (Op::Account, &[id]) => self.budget(id).map(|account| account.words().to_vec()),
            (Op::ChargeOf, &[id]) => self.object(id).map(|row| vec![row.payer, row.charge]),
            (Op::Totals, &[id]) => self.totals(id),
            (Op::Start, &[id, space, cspace, root, rip, rsp, rflags, rdi, rsi, cs, ss]) => {
                let context = [rip, rsp, rflags, rdi, rsi, cs, ss];
                self.start(id, [1, space, cspace, root], context)
            }
            (Op::BlockCurrent, &[kind, number]) => self.block_current([kind, number]),
            (Op::Wake, &[id, first, second, third]) => self.wake(id, [first, second, third]),
            (Op::IsBlockedOn, &[id, kind, number]) => self.is_blocked_on(id, [kind, number]),
            (Op::Kill, &[id, cause]) => self.kill(id, cause),
            (Op::Tick, &[tick]) => self.tick(tick),
            (Op::Plan, &[tick]) => self.plan(tick),
            (Op::Thread, &[id]) => self.read_thread(id),
            (Op::Current, []) => Ok(vec![self.0.current]),
            (Op::Switches, []) => Ok(vec![self.0.switches]),
            (Op::ExitOf, &[id]) => Ok(vec![self.exit_of(id)]),
            _ => unreachable!("{call} is lent more"),
        }
    }
}
