//! A picture's run, `open`, `next_place`, `step`, `step_predicted` and `close`: whole pictures, step
//! by step, both kinds of step in one run. A step is held to the originals' answer at the run's next
//! place, the run to the count of records and the sums over them, and every refused call to leave run
//! and areas as they were. Runs are forged too.

mod calls;
mod forged;

use crate::ask::{Coding, Run};
use crate::broodline::{Clip, Header};
use crate::clip::moving::Moving;
use crate::counted::{strings, Counted};
use crate::guard::Lent;
use crate::macroblock::whole::call::{Answer, Call, Form};
use crate::macroblock::whole::check::check_by;
use crate::macroblock::whole::still::{texture, Chroma, Texture};
use crate::macroblock::whole::Against;
use crate::options::Options;
use crate::random::Random;
use crate::summary::Row;

const NAME: &str = "run";

/// A picture takes as long as many macroblocks, so there is one for every so many valid calls that
/// are asked for.
const SHARE: usize = 60;

/// From so many pictures on everything that is counted has to be covered.
const ENOUGH: usize = 2_000;

const STEPS: &str = "steps";
const REFUSED: &str = "refused";
const KINDS: [&str; 4] =
    ["of an opened run", "with sums that wrap", "from a forged place", "after the other kind"];
const NUMBERS: [&str; 8] =
    ["1", "12", "21", "21 before 22", "22", "22 before 1", "4 of chroma", "31"];

/// Titles for steps against a lent prediction and against one that is made.
fn title(form: Form, title: &'static str) -> &'static str {
    match (form, title) {
        (Form::Lent, title) => title,
        (Form::Made, STEPS) => "predicted steps",
        (Form::Made, _) => "predicted refused",
    }
}

pub struct Rows {
    open: Row,
    next_place: Row,
    step: Row,
    step_predicted: Row,
    close: Row,
}

impl Rows {
    fn step(&mut self, form: Form) -> &mut Row {
        match form {
            Form::Lent => &mut self.step,
            Form::Made => &mut self.step_predicted,
        }
    }
}

pub fn compare(options: &Options) -> Vec<Row> {
    let mut random = Random::new(options.seed.wrapping_add(0x500 << 48));
    let all = Form::BOTH.into_iter().flat_map(|form| {
        let numbers = if form == Form::Made { &NUMBERS[..] } else { &NUMBERS[..6] };
        [(title(form, STEPS), strings(&KINDS)), (title(form, REFUSED), strings(numbers))]
    });
    let mut counted = Counted::new(NAME, all.collect()).naming("pictures equal", ENOUGH);
    let mut rows = Rows {
        open: Row::new("open"),
        next_place: Row::never_refused("next_place"),
        step: Row::new("step"),
        step_predicted: Row::new("step_predicted"),
        close: Row::new("close"),
    };
    for turn in 0..options.valid / SHARE {
        let moving = Moving::random(turn, &mut random);
        let clip = Clip::read(&moving.bytes).expect("a clip with nothing wrong");
        let before = before(&clip, &mut random);
        let (counted, random, rows) = (&mut counted, &mut random, &mut rows);
        Picture { clip: &clip, before: &before, counted, random, rows }.check();
        counted.count(Vec::new());
        rows.step_predicted.unchanged(before.unchanged());
    }
    rows.step.covered(counted.finish());
    for form in Form::BOTH {
        forged::refused_steps(form, options, &mut rows, &mut random);
    }
    forged::compare(options, &mut rows, &mut random);
    let Rows { open, next_place, step, step_predicted, close } = rows;
    vec![open, next_place, step, step_predicted, close]
}

/// The reference's chroma planes for a clip, which has none: the picture's own, or others.
fn before(clip: &Clip, random: &mut Random) -> Chroma {
    let (width, height) = clip.header.sides();
    let Coding { cb, cr, .. } = clip.coding(0).expect("a prediction");
    let own = |plane: &[u8]| -> Texture {
        let (plane, across) = (plane.to_vec(), width.div_ceil(2));
        Box::new(move |x, y| plane[y as usize * across + x as usize])
    };
    let textures =
        if random.chance(70) { [own(cb), own(cr)] } else { [(); 2].map(|()| texture(random)) };
    Chroma::random((width, height), textures, random)
}

struct Picture<'a> {
    clip: &'a Clip<'a>,
    before: &'a Chroma,
    counted: &'a mut Counted,
    random: &'a mut Random,
    rows: &'a mut Rows,
}

impl<'a> Picture<'a> {
    fn check(&mut self) {
        let Header { width, height, .. } = self.clip.header;
        let count = self.clip.header.macroblocks();
        let (reply, found) = calls::open(width.into(), height.into(), self.random.byte());
        self.rows.open.called(reply, found);
        let mut run = [width.into(), height.into(), 0, 0, 0];
        let mut last = None;
        for k in 0..count {
            self.closed(&run);
            let mut next = Vec::new();
            for form in Form::BOTH {
                self.turned_back(form, &run, k);
                self.forged(form, k);
                if last.is_some_and(|last| last != form) {
                    self.counted.add(title(form, STEPS), "after the other kind");
                }
                next.push((self.step(form, run, k, "of an opened run"), form));
            }
            // The run goes on by either.
            let (after, form) = self.random.pick(&next);
            (run, last) = (after, Some(form));
        }
        for form in Form::BOTH {
            self.after_the_last(form, &run);
        }
        self.closed(&run);
    }

    /// The run's end and its next place, asked for whether it is at its end or not.
    fn closed(&mut self, run: &Run) {
        let (reply, found) = calls::close(run, self.random.byte());
        self.rows.close.called(reply, found);
        let (reply, found) = calls::next_place(run, self.random.byte());
        self.rows.next_place.called(reply, found);
    }

    /// A call for a macroblock of the clip. Where the prediction is made, the clip's stands for it.
    fn call(&mut self, form: Form, k: usize) -> Call<'a> {
        let coding = self.clip.coding(k).expect("a whole prediction");
        let making = (form == Form::Made).then(|| self.before.making(self.random));
        Call::new(coding, making)
    }

    /// The step that is due, held to the originals; the run after it.
    fn step(&mut self, form: Form, run: Run, k: usize, kind: &str) -> Run {
        let Call { mut coding, making, .. } = self.call(form, k);
        let made = making.map(|making| Against::new(&coding, Some(&making), self.random));
        if let Some(made) = &made {
            coding.prediction = made.prediction();
        }
        let call = Call::new(coding, making);
        let found = stepped(&run, &call, 0, self.random);
        self.counted.add(title(form, STEPS), kind);
        let answer = self.rows.step(form).valid(found);
        after(&run, &answer.unwrap_or_else(|| call.ask_original()))
    }

    /// A step that is turned back, for the run or for the input, and changes nothing.
    fn turned_back(&mut self, form: Form, run: &Run, k: usize) {
        let mut call = self.call(form, k);
        let search = &mut call.coding.search;
        let (number, name) = match (self.random.size(0, 5), &mut call.making) {
            (0, _) => {
                search.fcode = 8;
                (1, "1")
            }
            (1, _) => {
                call.lens[1] = 383;
                (12, "12")
            }
            (2, Some(making)) => {
                making.rounding = 2;
                (31, "31")
            }
            (3, Some(making)) => {
                making.chroma_stride = search.reference.width.div_ceil(2) - 1;
                (4, "4 of chroma")
            }
            (2 | 4, _) => {
                search.source.width += 1;
                (22, "22")
            }
            _ => {
                search.source.height += 1;
                search.fcode = 0;
                (22, "22 before 1")
            }
        };
        self.refused(form, run, call, number, name);
    }

    fn after_the_last(&mut self, form: Form, run: &Run) {
        let call = self.call(form, 0);
        self.refused(form, run, call, 21, "21");
        let mut call = self.call(form, 0);
        call.coding.search.source.width += 1;
        self.refused(form, run, call, 21, "21 before 22");
    }

    /// Runs that no opening gave: any place, totals that wrap, sides and places beyond all bounds.
    fn forged(&mut self, form: Form, k: usize) {
        let (width, height) = self.clip.header.sides();
        let (width, height) = (width as u64, height as u64);
        if self.random.chance(10) {
            let near = u64::MAX - u64::from(self.random.byte() / 64);
            self.step(form, [width, height, k as u64, near, near], k, "with sums that wrap");
            let past = [width, height, u64::MAX, near, near];
            self.closed(&past);
            let call = self.call(form, k);
            self.refused(form, &past, call, 21, "21");
        }
        if self.random.chance(10) {
            self.step(form, [width, height, k as u64, 5, 6], k, "from a forged place");
            let call = self.call(form, k);
            self.refused(form, &[u64::MAX; 5], call, 22, "22");
            let call = self.call(form, k);
            self.refused(form, &[0, u64::MAX, 0, 0, 0], call, 21, "21 before 22");
        }
    }

    fn refused(&mut self, form: Form, run: &Run, call: Call, number: u8, name: &str) {
        let found = stepped(run, &call, number, self.random);
        self.rows.step(form).refused(found);
        self.counted.add(title(form, REFUSED), name);
    }
}

/// The run after a step with this answer.
fn after(run: &Run, answer: &Answer) -> Run {
    let events: u64 = answer.events.counts.iter().map(|&n| u64::from(n)).sum();
    let mut next = *run;
    next[2] = run[2].wrapping_add(1);
    next[3] = run[3].wrapping_add(events);
    next[4] = run[4].wrapping_add(answer.sum.into());
    next
}

/// A step, held to a reply: the answer. The run is lent between guards.
fn stepped(run: &Run, call: &Call, reply: u8, random: &mut Random) -> Result<Answer, String> {
    let mut lent = Lent::<u64>::holding(run, random.byte());
    let next: &mut Run = lent.area().try_into().expect("an area of 5");
    let answer = check_by(|areas, record| call.ask_step(next, areas, record), call, reply, random)?;
    let wanted = if reply == 0 { after(run, &answer) } else { *run };
    if lent.contents() != wanted || !lent.guards_hold() {
        let got = lent.contents();
        return Err(format!("MISMATCH: the run {run:?} became {got:?}, wanted {wanted:?}\n{call}"));
    }
    Ok(answer)
}
