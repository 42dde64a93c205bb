//! What the cases met, with counts.

use reference::{row_for, Field, Row, Sheet, LAST_STAGE, MOST_MODULES, RULES, STAGE_TABLE};

use crate::{Call, Kind, DAMAGES};

/// A macro only to keep each class and its name side by side.
macro_rules! odd_classes {
    ($($variant:ident => $name:literal,)*) => {
        /// The odd classes: coincidences, edges and refusals that a slip would hide behind.
        #[derive(Clone, Copy, PartialEq, Eq, Debug)]
        pub enum Odd {
            $(#[doc = $name] $variant,)*
        }

        /// All odd classes with their names, in the order of [`Odd`].
        const ODD: &[(Odd, &str)] = &[$((Odd::$variant, $name),)*];
    };
}

odd_classes! {
    PrevSelf5 => "alias: prev is the module itself at stage 5",
    PrevSelf6 => "alias: prev is the module itself at stage 6",
    PrevSelf9Done => "alias: prev is the module itself at stage 9, swap succeeds",
    PrevSelf9Failed => "alias: prev is the module itself at stage 9, swap fails",
    PrevSelf10 => "alias: prev is the module itself at stage 10",
    WSelf6 => "alias: w's pointer is the module itself at stage 6",
    WSelf7Below => "alias: w's pointer is the module itself at stage 7, below own",
    WSelf7Else => "alias: w's pointer is the module itself at stage 7, else",
    WSelf8 => "alias: w's pointer is the module itself at stage 8",
    WPrev7 => "alias: w's pointer is prev at stage 7",
    OwnPointerSelf15 => "alias: own link's pointer is the module itself at stage 15",
    SSelf16 => "alias: s is the module itself at stage 16",
    SSelf17 => "alias: s is the module itself at stage 17",
    SSelf18 => "alias: s is the module itself at stage 18",
    LockSelf2 => "alias: the lock word is the module itself at stage 2",
    LinkSelf5 => "alias: prev's link points to the module itself at stage 5",
    WClosed6 => "w closed at stage 6",
    WClosed7 => "w closed at stage 7",
    WClosed8 => "w closed at stage 8",
    WClosed9 => "w closed at stage 9",
    WClosed10 => "w closed at stage 10",
    SwapClosedW => "swap succeeds though w is closed",
    SwapFailsClosedWOpenFound => "swap fails, w closed and the link found open",
    SwapFailsClosedWClosedFound => "swap fails, w closed and the link found closed",
    SwapPointerOnly => "swap fails by the pointer alone",
    SwapMarkOnlyWClosed => "swap fails by the mark alone, w closed",
    SwapMarkOnlyWOpen => "swap fails by the mark alone, w open",
    SwapCountHighOnly => "swap fails by the count's high byte alone",
    SwapCountLowOnly => "swap fails by the count's low byte alone",
    SwapCountZeroFound => "swap fails by the count alone, expecting 65,535 and finding 0",
    Wrap1 => "the count wraps by pointing at stage 1",
    Wrap3 => "the count wraps by opening at stage 3",
    Wrap8 => "the count wraps by pointing at stage 8",
    Wrap9 => "the count wraps by a swap at stage 9",
    Wrap11 => "the count wraps by opening at stage 11",
    Wrap14 => "the count wraps by closing at stage 14",
    Carry => "the count's low byte carries into the high one",
    Same1 => "pointing at stage 1 where nil was there already",
    Same8 => "pointing at stage 8 where the pointer was there already",
    Same3 => "opening at stage 3 where it was open already",
    Same11 => "opening at stage 11 where it was open already",
    Same14 => "closing at stage 14 where it was closed already",
    Same9 => "swap to this module where the pointer was there already",
    Open1 => "stage 1 with an open mark, which stays",
    Open8 => "stage 8 with an open mark, which stays",
    Locked4 => "stage 4 where Locked was 1 already",
    Raised17 => "stage 17 where the record priority was 255 already",
    Freed18 => "stage 18 where Locked was 0 already",
    Raised19 => "stage 19 where the record priority was 255 already",
    Unraised3 => "stage 3 where the record priority is not 255, as before R-1",
    InsideBelow6 => "stage 6, prev inside and its record priority below own",
    InsideRaised6 => "stage 6, prev inside and raised, its own priority below own",
    Equal6 => "equal priorities at stage 6",
    OneBelow6 => "one below own at stage 6",
    Equal7 => "equal priorities at stage 7",
    OneBelow7 => "one below own at stage 7",
    Equal10 => "equal priorities at stage 10",
    OneBelow10 => "one below own at stage 10",
    BelowAndNil6 => "stage 6, prev's record priority below own and w's pointer nil",
    OwnRecordDiffers6 => "stage 6, own and own record priority on either side of prev's",
    OwnRecordDiffers7 => "stage 7, own and own record priority on either side of w's pointer's",
    OwnRecordDiffers10 => "stage 10, own and own record priority on either side of prev's",
    PrevNil3 => "prev nil at stage 3",
    PrevNil11 => "prev nil at stage 11",
    PrevNil19 => "prev nil at stage 19",
    WNil8 => "w's pointer nil at stage 8",
    WNil19 => "w's pointer nil at stage 19",
    SNil19 => "s nil at stage 19",
    PrevOther19 => "stage 19 where prev is another module, not raised",
    SOther19 => "stage 19 where s is another module, not raised",
    SNil16Lock => "stage 16 without successor, lock word not this module",
    LockOther19 => "stage 19, lock word not this module",
    LogTo256By3 => "admission at stage 3 fills the log to 256",
    LogTo256By12 => "admission at stage 12 fills the log to 256",
    WaitingFull => "waiting while the log holds 256",
    OtherStepFull => "a step that admits nobody while the log holds 256",
    RaisingFull => "stage 19 while the log holds 256",
    NoEntryLocked3 => "admission at stage 3 with Locked 1, which stays",
    Locked19 => "stage 19 with Locked 1, which stays",
    Open19 => "stage 19 with an open mark, which stays",
    StepAlone => "a step in a table of 1 module",
    StepOf64 => "a step in a table of 64 modules",
    StepOfLast => "a step of the last of several modules",
    StepOwner => "a step with owner's bytes in front",
    StepNoOwner => "a step without owner's bytes",
    SetUpFitting => "set-up in a buffer just long enough",
    SetUpOwner => "set-up with owner's bytes in front",
    SetUp64 => "set-up of 64 modules",
    SetUp1 => "set-up of 1 module",
    SetUpUnsound => "set-up over an unsound image",
    SetUpSound => "set-up over a sound image",
    SetUpOneShort => "set-up refused 8, one byte short",
    SetUpEmpty => "set-up refused 8, no byte at all",
    SetUp0 => "set-up refused 7, n = 0",
    SetUp65 => "set-up refused 7, n = 65",
    SetUpCut => "set-up refused 7, n right when cut to a byte",
    SetUpMax => "set-up refused 7, n = 4,294,967,295",
    BothSevenEight => "set-up where 7 and 8 both apply",
    BeginDone => "begin acquisition done",
    BeginLeast => "begin acquisition done with priority 1",
    BeginMost => "begin acquisition done with priority 254",
    ReleaseDone => "begin release done",
    TakeEmpty => "log taken, empty",
    TakeEmptyNoRoom => "log taken, empty, into no byte at all",
    TakeHeld => "log taken with entries, buffer longer",
    TakeFitting => "log taken with entries, buffer just as long",
    TakeFull => "log taken, 256 entries",
    TakeOneShort => "log refused 6, one byte short",
    TakeNoRoom => "log refused 6, no byte at all",
    BothOneTwo => "unsound and a module number that no table has",
    BothOneThree => "unsound and priority not 1 to 254",
    BothOneSix => "unsound and a log buffer of no byte",
    BothTwoThree => "2 and 3 both apply",
    BothThreeFour => "3 and 4 both apply",
    Module0 => "refused 2, module 0",
    ModuleAbove => "refused 2, module n + 1",
    ModuleCut => "refused 2, a module when cut to a byte",
    ModuleMax => "refused 2, module 4,294,967,295",
    Priority0 => "refused 3, priority 0",
    Priority255 => "refused 3, priority 255",
    Priority256 => "refused 3, priority 256",
    Priority999 => "refused 3, priority 999",
    PriorityCut => "refused 3, a priority when cut to a byte",
    PriorityMax => "refused 3, priority 4,294,967,295",
    StepIdle => "step refused 4 at stage 0",
    StepInside => "step refused 4 at stage 13",
    StepFull3 => "step refused 5 at stage 3",
    StepFull12 => "step refused 5 at stage 12",
    TurnNext => "turn of the module right after the marker's",
    TurnPastIdle => "turn that passes over a module at stage 0",
    TurnPastInside => "turn that passes over a module at stage 13",
    TurnAround => "turn that goes around from module n to a later one than 1",
    TurnAroundTo1 => "turn that goes around from module n to 1",
    TurnItself => "turn of the marker's own module, the last one, in a table of several",
    TurnWaiting => "turn of a module that waits at stage 12",
    TurnOtherFull => "turn that admits nobody while the log holds 256",
    TurnFull3 => "turn refused 5 at stage 3",
    TurnFull12 => "turn refused 5 at stage 12",
    TurnFullNotAlone => "turn refused 5 where another could step",
    NobodyIdle => "turn where all are at stage 0",
    NobodyInside => "turn where nobody can step and some are at stage 13",
    NobodyAlone => "turn where nobody can step in a table of 1 module",
    NobodySeveral => "turn where nobody can step in a table of several",
    NobodyFull => "turn where nobody can step while the log holds 256",
    MarkerLast => "turn with marker n",
    Marker0 => "turn refused 10, marker 0",
    MarkerAbove => "turn refused 10, marker n + 1",
    MarkerCut => "turn refused 10, a module when cut to a byte",
    MarkerMax => "turn refused 10, marker 4,294,967,295",
    BothOneTen => "unsound and a marker that no table has",
    BothTenFive => "10 where the first of the table that can step would be refused 5",
    BothTenNobody => "10 where nobody can step",
}

/// The refusals that each call can give.
const REFUSALS: [(&str, u32); 18] = [
    ("set up", 7),
    ("set up", 8),
    ("begin acquisition", 1),
    ("begin acquisition", 2),
    ("begin acquisition", 3),
    ("begin acquisition", 4),
    ("begin release", 1),
    ("begin release", 2),
    ("begin release", 4),
    ("step", 1),
    ("step", 2),
    ("step", 4),
    ("step", 5),
    ("take the log", 1),
    ("take the log", 6),
    ("turn", 1),
    ("turn", 10),
    ("turn", 5),
];

/// How many stages there are.
const STAGES: usize = LAST_STAGE as usize + 1;

/// A class and how often it was hit.
#[derive(Clone, PartialEq, Eq, Debug)]
pub struct Class {
    /// Its name.
    pub name: String,
    /// How often it was hit.
    pub hits: u64,
}

/// The record of what was met.
#[derive(Clone, Debug)]
pub struct Coverage {
    calls: u64,
    rows: [u64; STAGE_TABLE.len()],
    refusals: [u64; REFUSALS.len()],
    /// Rows carried out by turns, and turns that step by the number of modules.
    turn_rows: [u64; STAGE_TABLE.len()],
    turns: [u64; MOST_MODULES],
    /// The same, in histories alone.
    history_rows: [u64; STAGE_TABLE.len()],
    history_refusals: [u64; REFUSALS.len()],
    history_set_ups: u64,
    history_takings: u64,
    history_turns: u64,
    /// Turns where nobody can step.
    history_nobody: u64,
    /// Stage 6 where prev is inside and less urgent by its own priority.
    history_urgent: u64,
    /// Begin acquisition and begin release refused 4, by stage.
    wrong_stage: [[u64; STAGES]; 2],
    rules: [u64; RULES.len()],
    damages: Vec<u64>,
    odd: Vec<u64>,
    strangers: u64,
}

impl Default for Coverage {
    fn default() -> Coverage {
        Coverage::new()
    }
}

impl Coverage {
    /// Nothing met yet.
    pub fn new() -> Coverage {
        Coverage {
            calls: 0,
            rows: [0; STAGE_TABLE.len()],
            refusals: [0; REFUSALS.len()],
            turn_rows: [0; STAGE_TABLE.len()],
            turns: [0; MOST_MODULES],
            history_rows: [0; STAGE_TABLE.len()],
            history_refusals: [0; REFUSALS.len()],
            history_set_ups: 0,
            history_takings: 0,
            history_turns: 0,
            history_nobody: 0,
            history_urgent: 0,
            wrong_stage: [[0; STAGES]; 2],
            rules: [0; RULES.len()],
            damages: vec![0; DAMAGES.len()],
            odd: vec![0; ODD.len()],
            strangers: 0,
        }
    }

    /// How many calls were looked at.
    pub fn calls(&self) -> u64 {
        self.calls
    }

    /// Every class with its count, those never hit too.
    pub fn classes(&self) -> Vec<Class> {
        let mut classes = Vec::new();
        let mut add = |name: String, hits: u64| classes.push(Class { name, hits });
        for (row, hits) in STAGE_TABLE.iter().zip(self.rows) {
            add(format!("row {}", row.name), hits);
        }
        for ((call, number), hits) in REFUSALS.iter().zip(self.refusals) {
            add(format!("{call} refused {number}"), hits);
        }
        for (row, hits) in STAGE_TABLE.iter().zip(self.turn_rows) {
            add(format!("by a turn, row {}", row.name), hits);
        }
        for (n, hits) in (1..).zip(self.turns) {
            add(format!("turn that steps, n = {n}"), hits);
        }
        for (row, hits) in STAGE_TABLE.iter().zip(self.history_rows) {
            add(format!("in a history, row {}", row.name), hits);
        }
        for ((call, number), hits) in REFUSALS.iter().zip(self.history_refusals) {
            // A history's images are sound.
            if *number != 1 {
                add(format!("in a history, {call} refused {number}"), hits);
            }
        }
        add("in a history, a new set-up".into(), self.history_set_ups);
        add(
            "in a history, a log with entries taken".into(),
            self.history_takings,
        );
        add("in a history, a turn that steps".into(), self.history_turns);
        add(
            "in a history, a turn where nobody can step".into(),
            self.history_nobody,
        );
        add(
            "in a history, stage 6 with a less urgent one inside".into(),
            self.history_urgent,
        );
        for (place, call) in ["begin acquisition", "begin release"].iter().enumerate() {
            let right = [0, 13][place];
            for stage in (0..STAGES).filter(|stage| *stage != right) {
                let hits = self.wrong_stage[place][stage];
                add(format!("{call} refused 4 at stage {stage}"), hits);
            }
        }
        for (rule, hits) in RULES.iter().zip(self.rules) {
            add(format!("unsound by one rule alone: {}", rule.name), hits);
        }
        for (damage, hits) in DAMAGES.iter().zip(&self.damages) {
            let rules = damage.breaks.join(" and ");
            add(format!("damage to \"{rules}\": {}", damage.side), *hits);
        }
        for ((_, name), hits) in ODD.iter().zip(&self.odd) {
            add(format!("odd: {name}"), *hits);
        }
        classes
    }

    /// The names of the classes never hit.
    pub fn never_hit(&self) -> Vec<String> {
        self.classes()
            .into_iter()
            .filter(|class| class.hits == 0)
            .map(|class| class.name)
            .collect()
    }

    /// Refusals that no call should give, counted apart; there should be none.
    pub fn strangers(&self) -> u64 {
        self.strangers
    }

    /// Take note of a damaged image, if it breaks just what it should.
    pub fn damaged(&mut self, damage: usize, image: &[u8]) {
        if reference::broken_rules(image) == DAMAGES[damage].breaks {
            self.damages[damage] += 1;
        }
    }

    /// Take note of a call of such a case on this image, and of the number by which it was
    /// refused.
    pub fn call(&mut self, kind: Kind, before: &[u8], call: &Call, refused: Option<u32>) {
        self.calls += 1;
        let in_history = u64::from(kind == Kind::History);
        let sheet = Sheet::read(before);
        let name = match call {
            Call::SetUp { .. } => "set up",
            Call::BeginAcquisition { .. } => "begin acquisition",
            Call::BeginRelease { .. } => "begin release",
            Call::Step { .. } => "step",
            Call::TakeLog { .. } => "take the log",
            Call::Turn { .. } => "turn",
        };
        if let Some(number) = refused {
            match REFUSALS.iter().position(|known| *known == (name, number)) {
                Some(place) => {
                    self.refusals[place] += 1;
                    self.history_refusals[place] += in_history;
                }
                None => self.strangers += 1,
            }
            if number == 1 {
                self.unsound(&sheet);
            }
        }
        match call {
            Call::SetUp { n } => {
                let sound = reference::is_sound(before);
                if refused.is_none() && sound {
                    self.history_set_ups += in_history;
                }
                self.set_up(before, sound, *n, refused);
            }
            Call::BeginAcquisition { p, priority } => {
                self.begin_acquisition(&sheet, *p, *priority, refused);
            }
            Call::BeginRelease { p } => {
                self.odd_if(Odd::ReleaseDone, refused.is_none());
                self.module(&sheet, *p, refused);
                if refused == Some(4) {
                    self.wrong_stage[1][usize::from(sheet.get(Field::Stage, *p as u16))] += 1;
                }
            }
            Call::Step { p } => {
                if let Some(place) = self.step(&sheet, *p, refused) {
                    self.rows[place] += 1;
                    self.history_rows[place] += in_history;
                    if STAGE_TABLE[place].stage == 6 && urgent(&sheet, *p as u16) {
                        self.history_urgent += in_history;
                    }
                }
            }
            Call::TakeLog { buffer } => {
                if refused.is_none() && sheet.log_length() > 0 {
                    self.history_takings += in_history;
                }
                self.take_log(&sheet, buffer.len(), refused);
            }
            Call::Turn { last } => {
                let stepped = self.turn(&sheet, *last, refused);
                self.history_turns += in_history & u64::from(stepped);
                let nobody = !stepped && refused.is_none();
                self.history_nobody += in_history & u64::from(nobody);
            }
        }
    }

    fn odd(&mut self, class: Odd) {
        self.odd[class as usize] += 1;
    }

    fn odd_if(&mut self, class: Odd, hit: bool) {
        self.odd[class as usize] += u64::from(hit);
    }

    /// An unsound image: which rule it breaks, if it is one alone.
    fn unsound(&mut self, sheet: &Sheet) {
        let mut broken = (0..RULES.len()).filter(|place| !(RULES[*place].kept)(sheet));
        if let (Some(place), None) = (broken.next(), broken.next()) {
            self.rules[place] += 1;
        }
    }

    /// The module number that a call was given.
    fn module(&mut self, sheet: &Sheet, p: u32, refused: Option<u32>) {
        let outside = p == 0 || p > 64;
        self.odd_if(Odd::BothOneTwo, refused == Some(1) && outside);
        if refused == Some(2) {
            let n = sheet.n();
            self.odd_if(Odd::Module0, p == 0);
            self.odd_if(Odd::ModuleAbove, p == n + 1);
            self.odd_if(Odd::ModuleCut, p > 255 && (1..=n).contains(&(p & 0xff)));
            self.odd_if(Odd::ModuleMax, p == u32::MAX);
        }
    }

    fn set_up(&mut self, before: &[u8], sound: bool, n: u32, refused: Option<u32>) {
        let length = before.len() as u64;
        let needed = reference::table_length(n);
        match refused {
            None => {
                self.odd_if(Odd::SetUpFitting, length == needed);
                self.odd_if(Odd::SetUpOwner, length > needed);
                self.odd_if(Odd::SetUp64, n == 64);
                self.odd_if(Odd::SetUp1, n == 1);
                self.odd_if(Odd::SetUpSound, sound);
                self.odd_if(Odd::SetUpUnsound, !sound);
            }
            Some(8) => {
                self.odd_if(Odd::SetUpOneShort, length + 1 == needed);
                self.odd_if(Odd::SetUpEmpty, length == 0);
            }
            _ => {
                self.odd_if(Odd::SetUp0, n == 0);
                self.odd_if(Odd::SetUp65, n == 65);
                self.odd_if(Odd::SetUpCut, n > 255 && (1..=64).contains(&(n & 0xff)));
                self.odd_if(Odd::SetUpMax, n == u32::MAX);
                self.odd_if(Odd::BothSevenEight, length < needed);
            }
        }
    }

    fn begin_acquisition(&mut self, sheet: &Sheet, p: u32, priority: u32, refused: Option<u32>) {
        self.module(sheet, p, refused);
        let wrong = !(1..=254).contains(&priority);
        match refused {
            None => {
                self.odd(Odd::BeginDone);
                self.odd_if(Odd::BeginLeast, priority == 1);
                self.odd_if(Odd::BeginMost, priority == 254);
            }
            Some(1) => self.odd_if(Odd::BothOneThree, wrong),
            Some(2) => self.odd_if(Odd::BothTwoThree, wrong),
            Some(3) => {
                let busy = sheet.get(Field::Stage, p as u16) != 0;
                self.odd_if(Odd::BothThreeFour, busy);
                self.odd_if(Odd::Priority0, priority == 0);
                self.odd_if(Odd::Priority255, priority == 255);
                self.odd_if(Odd::Priority256, priority == 256);
                self.odd_if(Odd::Priority999, priority == 999);
                let cut = priority & 0xff;
                self.odd_if(Odd::PriorityCut, priority > 255 && (1..=254).contains(&cut));
                self.odd_if(Odd::PriorityMax, priority == u32::MAX);
            }
            _ => self.wrong_stage[0][usize::from(sheet.get(Field::Stage, p as u16))] += 1,
        }
    }

    fn take_log(&mut self, sheet: &Sheet, room: usize, refused: Option<u32>) {
        let length = sheet.log_length();
        match refused {
            None => {
                self.odd_if(Odd::TakeEmpty, length == 0);
                self.odd_if(Odd::TakeEmptyNoRoom, length == 0 && room == 0);
                self.odd_if(Odd::TakeHeld, length > 0 && room > length);
                self.odd_if(Odd::TakeFitting, length > 0 && room == length);
                self.odd_if(Odd::TakeFull, length == 256);
            }
            Some(6) => {
                self.odd_if(Odd::TakeOneShort, room + 1 == length);
                self.odd_if(Odd::TakeNoRoom, room == 0);
            }
            _ => self.odd_if(Odd::BothOneSix, room == 0 && length > 0),
        }
    }

    /// Says whether a turn took a step.
    fn turn(&mut self, sheet: &Sheet, last: u32, refused: Option<u32>) -> bool {
        if refused == Some(1) {
            self.odd_if(Odd::BothOneTen, last == 0 || last > 64);
            return false;
        }
        let n = sheet.n();
        let stage = |p: u32| sheet.get(Field::Stage, p as u16);
        let full = sheet.log_length() == 256;
        // With a wrong marker: who would be the first from module 1 on.
        let after = if refused == Some(10) { n } else { last };
        let around: Vec<u32> = (after + 1..=n).chain(1..=after).collect();
        let place = around.iter().position(|p| ![0, 13].contains(&stage(*p)));
        let served = place.map(|place| around[place]);
        let row = served.and_then(|p| row_for(&STAGE_TABLE, sheet, p as u16));
        let admits = row.is_some_and(Row::admits);
        if refused == Some(10) {
            self.odd_if(Odd::Marker0, last == 0);
            self.odd_if(Odd::MarkerAbove, last == n + 1);
            let cut = last > 255 && (1..=n).contains(&(last & 0xff));
            self.odd_if(Odd::MarkerCut, cut);
            self.odd_if(Odd::MarkerMax, last == u32::MAX);
            self.odd_if(Odd::BothTenFive, admits && full);
            self.odd_if(Odd::BothTenNobody, served.is_none());
            return false;
        }
        let (Some(place), Some(served), Some(row)) = (place, served, row) else {
            let inside = around.iter().any(|p| stage(*p) == 13);
            self.odd_if(Odd::NobodyIdle, !inside);
            self.odd_if(Odd::NobodyInside, inside);
            self.odd_if(Odd::NobodyAlone, n == 1);
            self.odd_if(Odd::NobodySeveral, n > 1);
            self.odd_if(Odd::NobodyFull, full);
            return false;
        };
        if refused.is_some() {
            self.odd_if(Odd::TurnFull3, row.stage == 3);
            self.odd_if(Odd::TurnFull12, row.stage == 12);
            let others = &around[place + 1..];
            let another = others.iter().any(|p| ![0, 3, 12, 13].contains(&stage(*p)));
            self.odd_if(Odd::TurnFullNotAlone, another);
            return false;
        }
        let past = &around[..place];
        self.odd_if(Odd::TurnNext, n > 1 && past.is_empty());
        self.odd_if(Odd::TurnPastIdle, past.iter().any(|p| stage(*p) == 0));
        self.odd_if(Odd::TurnPastInside, past.iter().any(|p| stage(*p) == 13));
        self.odd_if(Odd::TurnAround, served > 1 && served < last);
        self.odd_if(Odd::TurnAroundTo1, served == 1 && last > 1);
        self.odd_if(Odd::TurnItself, n > 1 && served == last);
        self.odd_if(Odd::TurnWaiting, row.next == 12 && row.stage == 12);
        self.odd_if(Odd::TurnOtherFull, full);
        self.odd_if(Odd::MarkerLast, last == n);
        self.turns[n as usize - 1] += 1;
        if let Some(place) = STAGE_TABLE.iter().position(|known| known == row) {
            self.turn_rows[place] += 1;
        }
        true
    }

    /// Says which row of the table an accepted step carried out.
    fn step(&mut self, sheet: &Sheet, p: u32, refused: Option<u32>) -> Option<usize> {
        self.module(sheet, p, refused);
        let me = p as u16;
        match refused {
            Some(number) => {
                if number == 4 || number == 5 {
                    let stage = sheet.get(Field::Stage, me);
                    self.odd_if(Odd::StepIdle, number == 4 && stage == 0);
                    self.odd_if(Odd::StepInside, number == 4 && stage == 13);
                    self.odd_if(Odd::StepFull3, number == 5 && stage == 3);
                    self.odd_if(Odd::StepFull12, number == 5 && stage == 12);
                }
                None
            }
            None => {
                let row = row_for(&STAGE_TABLE, sheet, me)?;
                self.accepted_step(sheet, me, row);
                STAGE_TABLE.iter().position(|known| known == row)
            }
        }
    }

    fn accepted_step(&mut self, sheet: &Sheet, me: u16, row: &Row) {
        let n = sheet.n();
        let own_bytes = sheet.buffer_length() as u64 - reference::table_length(n);
        self.odd_if(Odd::StepAlone, n == 1);
        self.odd_if(Odd::StepOf64, n == 64);
        self.odd_if(Odd::StepOfLast, n > 1 && u32::from(me) == n);
        self.odd_if(Odd::StepOwner, own_bytes > 0);
        self.odd_if(Odd::StepNoOwner, own_bytes == 0);
        self.odd_if(Odd::OtherStepFull, sheet.log_length() == 256);

        let get = |field| sheet.get(field, me);
        let (prev, w_pointer, s) = (get(Field::Prev), get(Field::WPointer), get(Field::S));
        let own = sheet.link(me);
        let w = sheet.w(me);
        match row.stage {
            1 => {
                self.wraps(Odd::Wrap1, own.count);
                self.odd_if(Odd::Same1, own.pointer == 0);
                self.odd_if(Odd::Open1, !own.closed());
            }
            2 => self.odd_if(Odd::LockSelf2, sheet.lock_word() == me),
            3 => {
                self.wraps(Odd::Wrap3, own.count);
                self.odd_if(Odd::Same3, !own.closed());
                self.odd_if(Odd::LogTo256By3, sheet.log_length() == 255);
                self.odd_if(Odd::PrevNil3, prev == 0);
                self.odd_if(Odd::Unraised3, get(Field::RecordPriority) != 255);
                self.odd_if(Odd::NoEntryLocked3, get(Field::Locked) == 1);
            }
            4 => self.odd_if(Odd::Locked4, get(Field::Locked) == 1),
            5 => {
                self.odd_if(Odd::PrevSelf5, prev == me);
                self.odd_if(Odd::LinkSelf5, prev != me && sheet.link(prev).pointer == me);
            }
            6 => {
                self.odd_if(Odd::PrevSelf6, prev == me);
                self.odd_if(Odd::WSelf6, w_pointer == me);
                self.odd_if(Odd::WClosed6, w.closed());
                let below = self.priorities(
                    sheet,
                    me,
                    prev,
                    [Odd::Equal6, Odd::OneBelow6, Odd::OwnRecordDiffers6],
                );
                self.odd_if(Odd::BelowAndNil6, below && w_pointer == 0);
                self.odd_if(Odd::InsideBelow6, inside(sheet, prev) && below);
                let raised = sheet.get(Field::RecordPriority, prev) == 255;
                self.odd_if(Odd::InsideRaised6, urgent(sheet, me) && raised);
            }
            7 => {
                self.odd_if(Odd::WPrev7, w_pointer == prev);
                self.odd_if(Odd::WClosed7, w.closed());
                let below = self.priorities(
                    sheet,
                    me,
                    w_pointer,
                    [Odd::Equal7, Odd::OneBelow7, Odd::OwnRecordDiffers7],
                );
                self.odd_if(Odd::WSelf7Below, w_pointer == me && below);
                self.odd_if(Odd::WSelf7Else, w_pointer == me && !below);
            }
            8 => {
                self.wraps(Odd::Wrap8, own.count);
                self.odd_if(Odd::WSelf8, w_pointer == me);
                self.odd_if(Odd::WClosed8, w.closed());
                self.odd_if(Odd::Same8, own.pointer == w_pointer);
                self.odd_if(Odd::Open8, !own.closed());
                self.odd_if(Odd::WNil8, w_pointer == 0);
            }
            9 => self.swap(sheet, me, prev),
            10 => {
                self.odd_if(Odd::PrevSelf10, prev == me);
                self.odd_if(Odd::WClosed10, w.closed());
                self.priorities(
                    sheet,
                    me,
                    prev,
                    [Odd::Equal10, Odd::OneBelow10, Odd::OwnRecordDiffers10],
                );
            }
            11 => {
                self.wraps(Odd::Wrap11, own.count);
                self.odd_if(Odd::Same11, !own.closed());
                self.odd_if(Odd::PrevNil11, prev == 0);
            }
            12 => {
                self.odd_if(Odd::LogTo256By12, row.admits() && sheet.log_length() == 255);
                self.odd_if(Odd::WaitingFull, sheet.log_length() == 256);
            }
            14 => {
                self.wraps(Odd::Wrap14, own.count);
                self.odd_if(Odd::Same14, own.closed());
            }
            15 => self.odd_if(Odd::OwnPointerSelf15, own.pointer == me),
            16 => {
                self.odd_if(Odd::SSelf16, s == me);
                self.odd_if(Odd::SNil16Lock, s == 0 && sheet.lock_word() != me);
            }
            17 => {
                self.odd_if(Odd::SSelf17, s == me);
                self.odd_if(Odd::Raised17, sheet.get(Field::RecordPriority, s) == 255);
            }
            18 => {
                self.odd_if(Odd::SSelf18, s == me);
                self.odd_if(Odd::Freed18, sheet.get(Field::Locked, s) == 0);
            }
            _ => {
                let other = |module: u16| {
                    module != 0 && module != me && sheet.get(Field::RecordPriority, module) != 255
                };
                self.odd_if(Odd::Raised19, get(Field::RecordPriority) == 255);
                self.odd_if(Odd::PrevNil19, prev == 0);
                self.odd_if(Odd::PrevOther19, other(prev));
                self.odd_if(Odd::WNil19, w_pointer == 0);
                self.odd_if(Odd::SNil19, s == 0);
                self.odd_if(Odd::SOther19, other(s));
                self.odd_if(Odd::LockOther19, sheet.lock_word() != me);
                self.odd_if(Odd::RaisingFull, sheet.log_length() == 256);
                self.odd_if(Odd::Locked19, get(Field::Locked) == 1);
                self.odd_if(Odd::Open19, !own.closed());
            }
        }
    }

    fn wraps(&mut self, class: Odd, count: u16) {
        self.odd_if(class, count == 65_535);
        self.odd_if(Odd::Carry, count & 0xff == 0xff && count != 65_535);
    }

    /// A row that compares the record priority of `other` with own: equal, one below, and where it
    /// would matter if somebody took the own record's priority for own. Says whether it is below.
    fn priorities(&mut self, sheet: &Sheet, me: u16, other: u16, classes: [Odd; 3]) -> bool {
        let theirs = sheet.get(Field::RecordPriority, other);
        let own = sheet.get(Field::OwnPriority, me);
        let own_record = sheet.get(Field::RecordPriority, me);
        self.odd_if(classes[0], theirs == own);
        self.odd_if(classes[1], theirs + 1 == own);
        self.odd_if(classes[2], (theirs < own) != (theirs < own_record));
        theirs < own
    }

    fn swap(&mut self, sheet: &Sheet, me: u16, prev: u16) {
        let w = sheet.w(me);
        let found = sheet.link(prev);
        self.odd_if(Odd::WClosed9, w.closed());
        if w == found {
            self.wraps(Odd::Wrap9, found.count);
            self.odd_if(Odd::PrevSelf9Done, prev == me);
            self.odd_if(Odd::SwapClosedW, w.closed());
            self.odd_if(Odd::Same9, found.pointer == me);
            return;
        }
        self.odd_if(Odd::PrevSelf9Failed, prev == me);
        self.odd_if(
            Odd::SwapFailsClosedWOpenFound,
            w.closed() && !found.closed(),
        );
        self.odd_if(
            Odd::SwapFailsClosedWClosedFound,
            w.closed() && found.closed(),
        );
        let differs = (
            w.pointer != found.pointer,
            w.mark != found.mark,
            w.count != found.count,
        );
        match differs {
            (true, false, false) => self.odd(Odd::SwapPointerOnly),
            (false, true, false) if w.closed() => self.odd(Odd::SwapMarkOnlyWClosed),
            (false, true, false) => self.odd(Odd::SwapMarkOnlyWOpen),
            (false, false, true) => {
                let bits = w.count ^ found.count;
                self.odd_if(Odd::SwapCountHighOnly, bits & 0x00ff == 0);
                self.odd_if(Odd::SwapCountLowOnly, bits & 0xff00 == 0);
                self.odd_if(
                    Odd::SwapCountZeroFound,
                    w.count == 65_535 && found.count == 0,
                );
            }
            _ => {}
        }
    }
}

/// Whether a module is inside, at stage 13 or 14.
fn inside(sheet: &Sheet, module: u16) -> bool {
    (13..=14).contains(&sheet.get(Field::Stage, module))
}

/// Whether prev is inside and less urgent than this module, by the own priorities of both.
fn urgent(sheet: &Sheet, me: u16) -> bool {
    let prev = sheet.get(Field::Prev, me);
    inside(sheet, prev) && sheet.get(Field::OwnPriority, prev) < sheet.get(Field::OwnPriority, me)
}

#[cfg(test)]
mod tests {
    use super::*;

    #[test]
    fn every_class_has_its_own_name_and_starts_unhit() {
        let classes = Coverage::new().classes();
        for (place, class) in classes.iter().enumerate() {
            assert_eq!(class.hits, 0);
            assert!(
                classes[..place]
                    .iter()
                    .all(|other| other.name != class.name),
                "{}",
                class.name
            );
        }
        assert_eq!(Coverage::new().never_hit().len(), classes.len());
    }
}
