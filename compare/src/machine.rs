//! The plant numbering machine: its tables, the check that they are whole,
//! the step and the question for the holders of a series.

pub const SERIES: usize = 64;
pub const STATIONS: usize = 8;
pub const JOBS: usize = 16;
pub const LOCK_PLACES: usize = 4;
pub const COPIES: usize = SERIES * STATIONS;
pub const RECEIVED: usize = COPIES * STATIONS;
pub const OUTPUT: usize = 3 * LOCK_PLACES;

/// The highest last number of a series, and the highest count of a DRAW.
pub const NUMBER_MOST: u32 = 999_999_999;
/// The highest transfer number.
pub const SENT_MOST: u32 = 9_999;

// Kinds of copies, and of Releases, which are never void while they stand.
pub const VOID: u32 = 0;
pub const SHARED: u32 = 1;
pub const EXCLUSIVE: u32 = 2;

// The seventeen kinds of events.
pub const OPEN: u32 = 1;
pub const BEGIN: u32 = 2;
pub const LOCKX: u32 = 3;
pub const LOCKS: u32 = 4;
pub const DRAW: u32 = 5;
pub const READ: u32 = 6;
pub const COMMIT: u32 = 7;
pub const ABORT: u32 = 8;
pub const SEND: u32 = 9;
pub const DEMOTE: u32 = 10;
pub const SHARE: u32 = 11;
pub const DROP: u32 = 12;
pub const PROMOTE: u32 = 13;
pub const GRANT: u32 = 14;
pub const ACK: u32 = 15;
pub const CRASH: u32 = 16;
pub const RESTART: u32 = 17;

/// How many fields each kind has. Kind 0 doesn't exist.
pub const FIELDS: [usize; 18] = [0, 4, 2, 2, 2, 3, 2, 1, 1, 3, 2, 3, 2, 2, 4, 4, 1, 1];

// What is handed over whole is laid out as in C, so that a machine behind a C
// interface can take and give the same.

#[derive(Clone, Copy, Debug, PartialEq, Eq)]
#[repr(C)]
pub struct Event {
    pub kind: u32,
    /// Zeros after the kind's own fields.
    pub fields: [u32; 4],
}

#[derive(Clone, Copy, Debug, PartialEq, Eq)]
#[repr(C)]
pub struct Answer {
    /// 0 when accepted, else the number of the refusal.
    pub code: u32,
    pub value: u32,
}

/// Who holds a series; all zero after a refusal.
#[derive(Clone, Copy, Debug, PartialEq, Eq)]
#[repr(C)]
pub struct Holders {
    pub code: u32,
    /// Bit i for station i.
    pub set: u32,
    pub count: u32,
    /// 8 if no station holds a copy.
    pub lowest: u32,
}

/// The refusals with the numbers of the paper. The tables here have fixed
/// sizes, so number 1 (SHORT) can't come up and has no name.
#[derive(Clone, Copy, Debug, PartialEq, Eq)]
pub enum Refusal {
    NotWhole = 2,
    BadEvent = 3,
    Taken = 4,
    None = 5,
    Down = 6,
    Up = 7,
    Held = 8,
    Full = 9,
    Copy = 10,
    Locked = 11,
    NoLock = 12,
    Drawn = 13,
    Range = 14,
    Wait = 15,
    Spent = 16,
    Others = 17,
    NoMessage = 18,
}

/// The rules of whole tables.
#[derive(Clone, Copy, Debug, PartialEq, Eq)]
pub enum Rule {
    W1 = 1,
    W2 = 2,
    W3 = 3,
    W4 = 4,
    W5 = 5,
}

/// Nothing when the rules are kept, or the first one found broken.
type Kept = Result<(), Rule>;
/// The value of an accepted step, or the refusal.
type Outcome = Result<u32, Refusal>;
/// Nothing when a check is passed, or the refusal.
type Check = Result<(), Refusal>;

#[derive(Clone, Copy, Debug, Default, PartialEq, Eq)]
#[repr(C)]
pub struct Lock {
    pub series: u32,
    /// 0 for an unused place, 1 share, 2 exclusive.
    pub mode: u32,
    /// The count drawn, 0 if none.
    pub count: u32,
}

#[derive(Clone, Copy, Debug, Default, PartialEq, Eq)]
#[repr(C)]
pub struct Job {
    pub mark: u32,
    pub station: u32,
    pub locks: [Lock; LOCK_PLACES],
}

impl Job {
    /// How many lock places are used; the used ones come first (W5).
    pub fn used(&self) -> usize {
        self.locks.iter().take_while(|lock| lock.mode != 0).count()
    }

    /// The place of this job's lock on the series.
    pub fn lock_on(&self, series: usize) -> Option<usize> {
        self.locks
            .iter()
            .position(|lock| lock.mode != 0 && lock.series as usize == series)
    }
}

#[derive(Clone, Debug, PartialEq, Eq)]
pub struct Machine {
    pub firsts: [u32; SERIES],
    pub lasts: [u32; SERIES],
    pub kinds: [u32; COPIES],
    pub values: [u32; COPIES],
    pub sent: [u32; COPIES],
    pub release_to: [u32; COPIES],
    pub release_kind: [u32; COPIES],
    pub release_value: [u32; COPIES],
    /// By the receiver's place times 8 plus sender.
    pub received: [u32; RECEIVED],
    pub stations: [u32; STATIONS],
    pub jobs: [Job; JOBS],
    pub output: [u32; OUTPUT],
}

/// Where a station's copy of a series stands in the tables.
pub fn place(series: usize, station: usize) -> usize {
    series * STATIONS + station
}

/// Nothing, or the broken rule or the refusal that is named.
fn need<Wrong>(holds: bool, otherwise: Wrong) -> Result<(), Wrong> {
    if holds {
        Ok(())
    } else {
        Err(otherwise)
    }
}

fn all_zero(numbers: &[u32]) -> bool {
    numbers.iter().all(|&number| number == 0)
}

/// An empty plant: no series, no jobs, all stations up.
pub fn empty() -> Machine {
    Machine {
        firsts: [0; SERIES],
        lasts: [0; SERIES],
        kinds: [0; COPIES],
        values: [0; COPIES],
        sent: [0; COPIES],
        release_to: [0; COPIES],
        release_kind: [0; COPIES],
        release_value: [0; COPIES],
        received: [0; RECEIVED],
        stations: [1; STATIONS],
        jobs: [Job::default(); JOBS],
        output: [0; OUTPUT],
    }
}

impl Machine {
    /// Makes an empty plant of any tables; the output stays.
    pub fn clear(&mut self) {
        for column in self.columns_mut() {
            column.fill(0);
        }
        self.stations.fill(1);
        self.jobs.fill(Job::default());
    }
}

// When tables are whole.
impl Machine {
    /// W1 to W5.
    pub fn whole(&self) -> bool {
        self.rules_kept().is_ok()
    }

    /// The rule that the walk over the tables finds broken first.
    pub fn first_broken(&self) -> Option<Rule> {
        self.rules_kept().err()
    }

    fn rules_kept(&self) -> Kept {
        for series in 0..SERIES {
            self.series_whole(series)?;
        }
        for &mark in &self.stations {
            need(mark <= 1, Rule::W1)?;
        }
        for job in 0..JOBS {
            self.job_whole(job)?;
        }
        Ok(())
    }

    fn series_whole(&self, series: usize) -> Kept {
        if self.firsts[series] == 0 {
            return need(self.series_zero(series), Rule::W5);
        }
        self.ranges_whole(series)?;
        self.received_whole(series)?;
        need(self.tokens_whole(series), Rule::W2)
    }

    /// W5: a series that isn't open keeps nothing but zeros.
    fn series_zero(&self, series: usize) -> bool {
        let copies = place(series, 0)..place(series + 1, 0);
        let received = copies.start * STATIONS..copies.end * STATIONS;
        self.lasts[series] == 0
            && all_zero(&self.kinds[copies.clone()])
            && all_zero(&self.values[copies.clone()])
            && all_zero(&self.sent[copies.clone()])
            && all_zero(&self.release_to[copies.clone()])
            && all_zero(&self.release_kind[copies.clone()])
            && all_zero(&self.release_value[copies])
            && all_zero(&self.received[received])
    }

    /// W1 for an open series, and W5 for its Releases that don't stand.
    fn ranges_whole(&self, series: usize) -> Kept {
        let (first, last) = (self.firsts[series], self.lasts[series]);
        need(first <= last && last <= NUMBER_MOST, Rule::W1)?;
        for station in 0..STATIONS {
            let at = place(series, station);
            need(self.kinds[at] <= EXCLUSIVE && self.sent[at] <= SENT_MOST, Rule::W1)?;
            need(self.values[at] >= first && self.values[at] <= last + 1, Rule::W1)?;
            self.release_whole(at, station, first, last)?;
        }
        Ok(())
    }

    fn release_whole(&self, at: usize, station: usize, first: u32, last: u32) -> Kept {
        let (to, value) = (self.release_to[at], self.release_value[at]);
        match self.release_kind[at] {
            VOID => need(to == 0 && value == 0, Rule::W5),
            SHARED | EXCLUSIVE => {
                let addressed = (to as usize) < STATIONS && to as usize != station;
                let in_range = value >= first && value <= last + 1;
                need(addressed && in_range && self.sent[at] >= 1, Rule::W1)
            }
            _ => Err(Rule::W1),
        }
    }

    /// W3. With the sent counts in range, so are the received numbers (W1).
    fn received_whole(&self, series: usize) -> Kept {
        let start = place(series, 0);
        let sent = &self.sent[start..start + STATIONS];
        let release_to = &self.release_to[start..start + STATIONS];
        let release_kind = &self.release_kind[start..start + STATIONS];
        for station in 0..STATIONS {
            let at = place(series, station) * STATIONS;
            let received = &self.received[at..at + STATIONS];
            for sender in 0..STATIONS {
                let number = received[sender];
                need(number <= sent[sender], Rule::W3)?;
                need(sender != station || number == 0, Rule::W3)?;
                let stands = release_kind[sender] != VOID;
                if stands && number == sent[sender] {
                    need(release_to[sender] as usize == station, Rule::W3)?;
                }
            }
        }
        Ok(())
    }

    /// W2: one exclusive alone or shares alone, all with equal values.
    fn tokens_whole(&self, series: usize) -> bool {
        let (mut shares, mut exclusives) = (0, 0);
        let mut next = 0; // no value is 0 in an open series
        for station in 0..STATIONS {
            let at = place(series, station);
            let held = (self.kinds[at], self.values[at]);
            let under_way = if self.undelivered(series, station) {
                (self.release_kind[at], self.release_value[at])
            } else {
                (VOID, 0)
            };
            for &(kind, value) in &[held, under_way] {
                match kind {
                    VOID => continue,
                    SHARED => shares += 1,
                    _ => exclusives += 1,
                }
                if next != 0 && value != next {
                    return false;
                }
                next = value;
            }
        }
        (exclusives == 1 && shares == 0) || (exclusives == 0 && shares >= 1)
    }

    fn job_whole(&self, slot: usize) -> Kept {
        let job = &self.jobs[slot];
        if job.mark == 0 {
            return need(*job == Job::default(), Rule::W5);
        }
        need(job.mark == 1 && (job.station as usize) < STATIONS, Rule::W1)?;
        need(self.station_up(job.station as usize), Rule::W4)?;
        let used = job.used();
        for lock in &job.locks[used..] {
            need(*lock == Lock::default(), Rule::W5)?;
        }
        for number in 0..used {
            self.lock_whole(slot, number)?;
        }
        Ok(())
    }

    /// W4 for one lock of a job whose station is known to be in range.
    fn lock_whole(&self, slot: usize, number: usize) -> Kept {
        let job = &self.jobs[slot];
        let lock = &job.locks[number];
        let series = lock.series as usize;
        need(series < SERIES && lock.mode <= EXCLUSIVE, Rule::W1)?;
        need(self.series_open(series), Rule::W4)?;
        for earlier in &job.locks[..number] {
            need(earlier.series != lock.series, Rule::W4)?;
        }
        let at = place(series, job.station as usize);
        need(self.kinds[at] == lock.mode, Rule::W4)?;
        if lock.mode == SHARED {
            return need(lock.count == 0, Rule::W4);
        }
        need(lock.count <= self.lasts[series] + 1 - self.values[at], Rule::W4)?;
        for (other, that) in self.jobs.iter().enumerate() {
            if other != slot && that.station == job.station {
                need(that.lock_on(series).is_none(), Rule::W4)?;
            }
        }
        Ok(())
    }
}

// What the tables say.
impl Machine {
    pub fn series_open(&self, series: usize) -> bool {
        self.firsts[series] != 0
    }

    pub fn job_open(&self, job: usize) -> bool {
        self.jobs[job].mark != 0
    }

    pub fn station_up(&self, station: usize) -> bool {
        self.stations[station] != 0
    }

    /// "Free" means that no job locks that copy.
    pub fn copy_free(&self, series: usize, station: usize) -> bool {
        !self
            .jobs
            .iter()
            .any(|job| job.station as usize == station && job.lock_on(series).is_some())
    }

    pub fn release_stands(&self, series: usize, from: usize) -> bool {
        self.release_kind[place(series, from)] != VOID
    }

    /// The highest transfer number that a station has received from another.
    pub fn highest_received(&self, series: usize, from: usize, to: usize) -> u32 {
        self.received[place(series, to) * STATIONS + from]
    }

    /// The Release stands and the receiver's number is below the transfer's.
    pub fn undelivered(&self, series: usize, from: usize) -> bool {
        let at = place(series, from);
        self.release_stands(series, from)
            && self.highest_received(series, from, self.release_to[at] as usize) < self.sent[at]
    }

    /// The standing Release of from is addressed to to and has this number.
    pub fn release_matches(&self, series: usize, from: usize, to: usize, number: u32) -> bool {
        let at = place(series, from);
        self.release_stands(series, from)
            && self.release_to[at] as usize == to
            && self.sent[at] == number
    }

    /// Another station than this one holds a share copy.
    pub fn other_share(&self, series: usize, station: usize) -> bool {
        (0..STATIONS).any(|other| other != station && self.kinds[place(series, other)] == SHARED)
    }

    /// What may still be drawn: last + 1 - value.
    pub fn room(&self, series: usize, station: usize) -> u32 {
        self.lasts[series] + 1 - self.values[place(series, station)]
    }

    /// The stations with a copy of the series that isn't void.
    pub fn holders(&self, series: u32) -> Holders {
        match self.holder_set(series) {
            Ok(set) => Holders {
                code: 0,
                set,
                count: set.count_ones(),
                lowest: set.trailing_zeros().min(STATIONS as u32),
            },
            Err(refusal) => Holders {
                code: refusal as u32,
                set: 0,
                count: 0,
                lowest: 0,
            },
        }
    }

    fn holder_set(&self, series: u32) -> Outcome {
        if !self.whole() {
            return Err(Refusal::NotWhole);
        }
        let series = named_series(series)?;
        self.need_series(series)?;
        let mut set = 0;
        for station in 0..STATIONS {
            if self.kinds[place(series, station)] != VOID {
                set |= 1 << station;
            }
        }
        Ok(set)
    }
}

// Refusal 3: the fields by themselves.

fn named_series(series: u32) -> Result<usize, Refusal> {
    below(series, SERIES)
}

fn named_station(station: u32) -> Result<usize, Refusal> {
    below(station, STATIONS)
}

fn named_job(job: u32) -> Result<usize, Refusal> {
    below(job, JOBS)
}

fn below(number: u32, size: usize) -> Result<usize, Refusal> {
    if (number as usize) < size {
        Ok(number as usize)
    } else {
        Err(Refusal::BadEvent)
    }
}

/// The series, from and to of a transfer; from = to is a bad event.
fn named_transfer(series: u32, from: u32, to: u32) -> Result<(usize, usize, usize), Refusal> {
    let named = (named_series(series)?, named_station(from)?, named_station(to)?);
    need(from != to, Refusal::BadEvent)?;
    Ok(named)
}

// Refusals 5 to 16 that several kinds share.
impl Machine {
    fn need_series(&self, series: usize) -> Check {
        need(self.series_open(series), Refusal::None) // refusal 5
    }

    fn need_job(&self, job: usize) -> Check {
        need(self.job_open(job), Refusal::None) // refusal 5
    }

    fn need_up(&self, station: usize) -> Check {
        need(self.station_up(station), Refusal::Down) // refusal 6
    }

    fn need_copy(&self, series: usize, station: usize, kind: u32) -> Check {
        need(self.kinds[place(series, station)] == kind, Refusal::Copy) // refusal 10
    }

    fn need_free(&self, series: usize, station: usize) -> Check {
        need(self.copy_free(series, station), Refusal::Locked) // refusal 11
    }

    /// Refusals 15 and 16.
    fn need_sendable(&self, series: usize, from: usize) -> Check {
        need(!self.release_stands(series, from), Refusal::Wait)?;
        need(self.sent[place(series, from)] < SENT_MOST, Refusal::Spent)
    }
}

// The step.

/// Every refusal has value 0.
fn answered(outcome: Outcome) -> Answer {
    match outcome {
        Ok(value) => Answer { code: 0, value },
        Err(refusal) => Answer {
            code: refusal as u32,
            value: 0,
        },
    }
}

impl Machine {
    pub fn step(&mut self, event: Event) -> Answer {
        if !self.whole() {
            return answered(Err(Refusal::NotWhole)); // refusal 2
        }
        self.step_unchecked(event)
    }

    /// All of a step but the whole check, for tables known to be whole.
    pub fn step_unchecked(&mut self, event: Event) -> Answer {
        answered(self.outcome(event))
    }

    fn outcome(&mut self, event: Event) -> Outcome {
        let count = match FIELDS.get(event.kind as usize) {
            Some(&count) => count,
            None => return Err(Refusal::BadEvent),
        };
        need(all_zero(&event.fields[count..]), Refusal::BadEvent)?;
        let [a, b, c, d] = event.fields;
        match event.kind {
            OPEN => self.open(a, b, c, d),
            BEGIN => self.begin(a, b),
            LOCKX => self.lockx(a, b),
            LOCKS => self.locks(a, b),
            DRAW => self.draw(a, b, c),
            READ => self.read(a, b),
            COMMIT => self.commit(a),
            ABORT => self.abort(a),
            SEND => self.send(a, b, c),
            DEMOTE => self.demote(a, b),
            SHARE => self.share(a, b, c),
            DROP => self.drop(a, b),
            PROMOTE => self.promote(a, b),
            GRANT => self.grant(a, b, c, d),
            ACK => self.ack(a, b, c, d),
            CRASH => self.crash(a),
            RESTART => self.restart(a),
            _ => Err(Refusal::BadEvent),
        }
    }

    fn open(&mut self, series: u32, first: u32, last: u32, station: u32) -> Outcome {
        let (series, station) = (named_series(series)?, named_station(station)?);
        let bounds = first >= 1 && first <= last && last <= NUMBER_MOST;
        need(bounds, Refusal::BadEvent)?;
        need(!self.series_open(series), Refusal::Taken)?; // refusal 4
        self.need_up(station)?;
        self.firsts[series] = first;
        self.lasts[series] = last;
        // A series that isn't open keeps zeros (W5), so all copies are void.
        for other in 0..STATIONS {
            self.values[place(series, other)] = first;
        }
        self.kinds[place(series, station)] = EXCLUSIVE;
        Ok(0)
    }

    fn begin(&mut self, job: u32, station: u32) -> Outcome {
        let (job, at) = (named_job(job)?, named_station(station)?);
        need(!self.job_open(job), Refusal::Taken)?; // refusal 4
        self.need_up(at)?;
        self.jobs[job].mark = 1;
        self.jobs[job].station = station;
        Ok(0)
    }

    fn lockx(&mut self, job: u32, series: u32) -> Outcome {
        let (job, series, station) = self.lockable(job, series, EXCLUSIVE)?;
        self.need_free(series, station)?;
        self.add_lock(job, series, EXCLUSIVE)
    }

    fn locks(&mut self, job: u32, series: u32) -> Outcome {
        let (job, series, _) = self.lockable(job, series, SHARED)?;
        self.add_lock(job, series, SHARED)
    }

    /// Refusals 3 to 10 of LOCKX and LOCKS; gives job, series and station.
    fn lockable(
        &self,
        job: u32,
        series: u32,
        kind: u32,
    ) -> Result<(usize, usize, usize), Refusal> {
        let (job, series) = self.job_and_series(job, series)?;
        need(self.jobs[job].lock_on(series).is_none(), Refusal::Held)?; // refusal 8
        need(self.jobs[job].used() < LOCK_PLACES, Refusal::Full)?; // refusal 9
        let station = self.jobs[job].station as usize;
        self.need_copy(series, station, kind)?;
        Ok((job, series, station))
    }

    /// Refusals 3 and 5 of the events of a job on a series.
    fn job_and_series(&self, job: u32, series: u32) -> Result<(usize, usize), Refusal> {
        let (job, series) = (named_job(job)?, named_series(series)?);
        self.need_job(job)?;
        self.need_series(series)?;
        Ok((job, series))
    }

    fn add_lock(&mut self, job: usize, series: usize, mode: u32) -> Outcome {
        let next = self.jobs[job].used();
        self.jobs[job].locks[next] = Lock {
            series: series as u32,
            mode,
            count: 0,
        };
        Ok(0)
    }

    fn draw(&mut self, job: u32, series: u32, count: u32) -> Outcome {
        need((1..=NUMBER_MOST).contains(&count), Refusal::BadEvent)?;
        let (job, series) = self.job_and_series(job, series)?;
        let station = self.jobs[job].station as usize;
        let room = self.room(series, station);
        let held = self.jobs[job].lock_on(series).ok_or(Refusal::NoLock)?;
        let lock = &mut self.jobs[job].locks[held];
        need(lock.mode == EXCLUSIVE, Refusal::NoLock)?; // refusal 12
        need(lock.count == 0, Refusal::Drawn)?; // refusal 13
        need(count <= room, Refusal::Range)?; // refusal 14
        // Only noted: serials leave at COMMIT.
        lock.count = count;
        Ok(0)
    }

    fn read(&self, job: u32, series: u32) -> Outcome {
        let (job, series) = self.job_and_series(job, series)?;
        let job = &self.jobs[job];
        let held = job.lock_on(series).ok_or(Refusal::NoLock)?;
        Ok(self.values[place(series, job.station as usize)] + job.locks[held].count)
    }

    /// The stored values go up by the noted counts, and the serials leave.
    fn commit(&mut self, job: u32) -> Outcome {
        let slot = named_job(job)?;
        self.need_job(slot)?;
        let job = self.jobs[slot];
        let mut draws = 0;
        for lock in job.locks.iter().filter(|lock| lock.count != 0) {
            let at = place(lock.series as usize, job.station as usize);
            self.output[3 * draws] = lock.series;
            self.output[3 * draws + 1] = self.values[at];
            self.output[3 * draws + 2] = lock.count;
            self.values[at] += lock.count;
            draws += 1;
        }
        self.close(slot);
        Ok(draws as u32)
    }

    fn abort(&mut self, job: u32) -> Outcome {
        let slot = named_job(job)?;
        self.need_job(slot)?;
        self.close(slot);
        Ok(0)
    }

    fn close(&mut self, slot: usize) {
        self.jobs[slot] = Job::default();
    }

    fn send(&mut self, series: u32, from: u32, to: u32) -> Outcome {
        let (series, from, to) = named_transfer(series, from, to)?;
        self.need_series(series)?;
        self.need_up(from)?;
        self.need_copy(series, from, EXCLUSIVE)?;
        self.need_free(series, from)?;
        self.need_sendable(series, from)?;
        self.kinds[place(series, from)] = VOID;
        Ok(self.release(series, from, to, EXCLUSIVE))
    }

    fn share(&mut self, series: u32, from: u32, to: u32) -> Outcome {
        let (series, from, to) = named_transfer(series, from, to)?;
        self.need_series(series)?;
        self.need_up(from)?;
        self.need_copy(series, from, SHARED)?;
        self.need_sendable(series, from)?;
        Ok(self.release(series, from, to, SHARED))
    }

    /// Writes the Release and gives the transfer number.
    fn release(&mut self, series: usize, from: usize, to: usize, kind: u32) -> u32 {
        let at = place(series, from);
        self.sent[at] += 1;
        self.release_to[at] = to as u32;
        self.release_kind[at] = kind;
        self.release_value[at] = self.values[at];
        self.sent[at]
    }

    fn demote(&mut self, series: u32, station: u32) -> Outcome {
        self.change_copy(series, station, EXCLUSIVE, SHARED)
    }

    fn drop(&mut self, series: u32, station: u32) -> Outcome {
        self.change_copy(series, station, SHARED, VOID)
    }

    fn promote(&mut self, series: u32, station: u32) -> Outcome {
        self.change_copy(series, station, SHARED, EXCLUSIVE)
    }

    /// DEMOTE, DROP and PROMOTE differ in the kinds and in refusal 17 alone.
    fn change_copy(&mut self, series: u32, station: u32, from: u32, into: u32) -> Outcome {
        let (series, station) = (named_series(series)?, named_station(station)?);
        self.need_series(series)?;
        self.need_up(station)?;
        self.need_copy(series, station, from)?;
        self.need_free(series, station)?;
        match into {
            // Refusal 17: a DROP must leave a share copy.
            VOID => need(self.other_share(series, station), Refusal::Others)?,
            EXCLUSIVE => need(self.only_token(series, station), Refusal::Others)?,
            _ => {}
        }
        self.kinds[place(series, station)] = into;
        Ok(0)
    }

    /// Refusal 17 of PROMOTE: no other station may have a share copy and no
    /// transfer may be undelivered.
    fn only_token(&self, series: usize, station: usize) -> bool {
        !self.other_share(series, station)
            && !(0..STATIONS).any(|from| self.undelivered(series, from))
    }

    fn grant(&mut self, series: u32, from: u32, to: u32, number: u32) -> Outcome {
        let (series, from, to) = named_transfer(series, from, to)?;
        need((1..=SENT_MOST).contains(&number), Refusal::BadEvent)?;
        self.need_series(series)?;
        self.need_up(to)?;
        // Judged by the number and not by the copy, which may have come and
        // gone again.
        if number <= self.highest_received(series, from, to) {
            return Ok(0);
        }
        let matches = self.release_matches(series, from, to, number);
        need(matches, Refusal::NoMessage)?; // refusal 18
        let (sender, receiver) = (place(series, from), place(series, to));
        self.kinds[receiver] = self.release_kind[sender];
        self.values[receiver] = self.release_value[sender];
        self.received[receiver * STATIONS + from] = number;
        Ok(1)
    }

    fn ack(&mut self, series: u32, from: u32, to: u32, number: u32) -> Outcome {
        let (series, from, to) = named_transfer(series, from, to)?;
        need((1..=SENT_MOST).contains(&number), Refusal::BadEvent)?;
        self.need_series(series)?;
        self.need_up(from)?;
        let at = place(series, from);
        need(number <= self.sent[at], Refusal::NoMessage)?; // refusal 18
        if !self.release_matches(series, from, to, number) {
            return Ok(0); // late (X7)
        }
        need(!self.undelivered(series, from), Refusal::NoMessage)?; // refusal 18
        self.release_to[at] = 0;
        self.release_kind[at] = VOID;
        self.release_value[at] = 0;
        Ok(1)
    }

    fn crash(&mut self, station: u32) -> Outcome {
        let at = named_station(station)?;
        self.need_up(at)?;
        self.stations[at] = 0;
        let mut closed = 0;
        for slot in 0..JOBS {
            if self.job_open(slot) && self.jobs[slot].station == station {
                self.close(slot);
                closed += 1;
            }
        }
        Ok(closed)
    }

    fn restart(&mut self, station: u32) -> Outcome {
        let station = named_station(station)?;
        need(!self.station_up(station), Refusal::Up)?; // refusal 7
        self.stations[station] = 1;
        let held = |&series: &usize| self.kinds[place(series, station)] != VOID;
        Ok((0..SERIES).filter(held).count() as u32)
    }
}
