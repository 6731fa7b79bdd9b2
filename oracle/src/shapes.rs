//! The shapes of random sessions.

use crate::plan::Plan;
use crate::script::Capacity;
use crate::script::Script;
use crate::script::Style;

/// A named kind of session.
pub struct Shape {
    pub name: &'static str,
    /// What is special about it.
    pub about: &'static str,
    /// Writes such a session.
    pub write: fn(&mut Script),
}

/// All shapes; a session takes the one at its number, counted round and round.
pub const SHAPES: [Shape; 21] = [
    shape("few", "up to four jobs", few),
    shape("many", "24 to 34 jobs", many),
    shape("clustered", "all within a few instants", clustered),
    shape("spread", "all over the range", spread),
    shape("minus-one", "around -1 and 0", minus_one),
    shape("edges", "ends of every range, one past", edges),
    shape("equal", "equal usages", equal),
    shape("nothing", "usage 0 and duration 0", nothing),
    shape("negative", "negative usage or duration", negative),
    shape("heavy", "a usage over the capacity", heavy),
    shape("zero", "capacity 0", zero),
    shape("full", "tables at 120 to 128 rows", full),
    shape("grown", "refusal 8 by an added part", grown),
    shape("shrunk", "refusal 8 by a removed part", shrunk),
    shape("long", "long parts over many rows", long),
    shape("stack", "32 ids in one row", stack),
    shape("stale", "stale and live again", stale),
    shape("refused", "refused calls between", refused),
    shape("malformed", "lines that can't be read", malformed),
    shape("fit", "first-fit questions", fit),
    shape("plain", "none of the four exceptions", plain),
];

/// The greatest start bound, duration and capacity.
const BILLION: i32 = 1_000_000_000;

/// The common style that shapes vary.
const COMMON: Style = Style {
    loads: (1, 3),
    jobs: (1, 8),
    starts: (-6, 24),
    windows: (0, 12),
    durations: (1, 9),
    usages: (1, 4),
    capacity: Capacity::Percent((45, 110)),
    steps: (4, 24),
    noise: 16,
    malformed: true,
};

/// A shape from its three parts.
const fn shape(name: &'static str, about: &'static str, write: fn(&mut Script)) -> Shape {
    Shape { name, about, write }
}

/// The shape with this name.
pub fn named(name: &str) -> Option<&'static Shape> {
    SHAPES.iter().find(|shape| shape.name == name)
}

/// Up to four jobs.
fn few(script: &mut Script) {
    let jobs = (0, 4);
    script.wander(&Style { jobs, ..COMMON });
}

/// As many jobs as a load takes, or one or two more.
fn many(script: &mut Script) {
    script.wander(&Style {
        loads: (1, 2),
        jobs: (24, 34),
        starts: (-40, 160),
        durations: (1, 40),
        usages: (1, 20),
        capacity: Capacity::Percent((25, 70)),
        ..COMMON
    });
}

/// All within a few instants, so that most parts overlap.
fn clustered(script: &mut Script) {
    script.wander(&Style {
        starts: (3, 8),
        windows: (0, 4),
        durations: (1, 4),
        ..COMMON
    });
}

/// All over the ranges.
fn spread(script: &mut Script) {
    script.wander(&Style {
        starts: (-BILLION, BILLION),
        windows: (0, BILLION),
        durations: (1, BILLION),
        usages: (1, 1_000_000),
        ..COMMON
    });
}

/// Parts that start and end around -1 and 0.
fn minus_one(script: &mut Script) {
    script.wander(&Style {
        starts: (-4, 1),
        windows: (0, 4),
        durations: (1, 4),
        ..COMMON
    });
}

/// Equal usages, so that ids follow the input and lists differ only in order.
fn equal(script: &mut Script) {
    script.wander(&Style {
        usages: (2, 2),
        durations: (3, 6),
        ..COMMON
    });
}

/// Jobs that are dropped, with usage or duration 0, among others.
fn nothing(script: &mut Script) {
    script.wander(&Style {
        usages: (0, 2),
        durations: (0, 3),
        ..COMMON
    });
}

/// Negative usages and durations.
fn negative(script: &mut Script) {
    script.wander(&Style {
        jobs: (1, 3),
        usages: (-1, 3),
        durations: (-1, 4),
        capacity: Capacity::Exactly(3),
        ..COMMON
    });
}

/// Some jobs draw more than the capacity alone.
fn heavy(script: &mut Script) {
    script.wander(&Style {
        usages: (1, 5),
        capacity: Capacity::Exactly(4),
        ..COMMON
    });
}

/// Capacity 0.
fn zero(script: &mut Script) {
    script.wander(&Style {
        usages: (0, 1),
        capacity: Capacity::Exactly(0),
        ..COMMON
    });
}

/// Loads that are overloaded, and wide windows that end it.
fn stale(script: &mut Script) {
    script.wander(&Style {
        jobs: (2, 5),
        starts: (0, 14),
        windows: (8, 30),
        durations: (2, 8),
        capacity: Capacity::AtLeastGreatest,
        ..COMMON
    });
}

/// Every other step is refused.
fn refused(script: &mut Script) {
    let noise = 2;
    script.wander(&Style { noise, ..COMMON });
}

/// Lines that cannot be read, before, within and after a load.
fn malformed(script: &mut Script) {
    let noise = 0;
    for _ in 0..3 {
        script.malformed();
        let (loads, steps) = ((1, 1), (1, 4));
        script.wander(&Style {
            loads,
            steps,
            noise,
            ..COMMON
        });
        for _ in 0..4 {
            script.malformed();
        }
        script.table();
    }
}

/// Wide windows, and after a few steps the first fit of every task.
fn fit(script: &mut Script) {
    let style = Style {
        loads: (1, 1),
        windows: (0, 60),
        durations: (1, 18),
        capacity: Capacity::Percent((30, 100)),
        steps: (0, 6),
        ..COMMON
    };
    script.wander(&style);
    for _ in 0..3 {
        script.steps(&style);
        for id in 0..script.tasks().len() {
            script.first_fit(id);
            window_to_a_border(script, id);
            script.first_fit(id);
        }
    }
}

/// Gives a task a window that ends where a row ends, just before that or just behind it.
fn window_to_a_border(script: &mut Script, id: usize) {
    let rows = script.rows();
    if !rows.is_empty() {
        let row = script.random.below(rows.len());
        let latest = rows[row].end + script.random.between((-1, 2));
        let earliest = latest - script.random.between((0, 40));
        script.update(id, earliest, latest);
    }
}

/// No event at -1, as all is too far from there to get there; no usage over the capacity; nothing
/// negative; and at most 103 rows, as n jobs are at most 2n - 1 rows and an update adds at most two.
fn plain(script: &mut Script) {
    let starts = script.random.pick(&[(400, 430), (400, 406), (-930, -900)]);
    script.wander(&Style {
        jobs: (0, 12),
        starts,
        windows: (0, 10),
        capacity: Capacity::AtLeastGreatest,
        steps: (4, 40),
        noise: 12,
        malformed: false,
        ..COMMON
    });
}

/// Numbers from the ends of the ranges, once in a while one past them.
fn edges(script: &mut Script) {
    for _ in 0..script.random.between((1, 4)) {
        for _ in 0..script.random.between((1, 5)) {
            let (earliest, latest) = bounds_at_the_edge(script);
            let duration = at_the_edge(script, &[0, 1, 2, BILLION - 1, BILLION]);
            let usage = at_the_edge(script, &[0, 1, 999_999, 1_000_000]);
            script.job(earliest, latest, duration, usage);
        }
        let capacities = [0, 1, 1_000_000, 3_000_000, BILLION - 1, BILLION];
        let capacity = at_the_edge(script, &capacities);
        script.load(capacity);
        for _ in 0..script.random.between((1, 10)) {
            let id = script.random.below(script.tasks().len() + 1);
            let (earliest, latest) = bounds_at_the_edge(script);
            script.update(id, earliest, latest);
            script.first_fit(id);
            script.table();
        }
    }
}

/// One of these numbers, once in a while one that is past some range.
fn at_the_edge(script: &mut Script, within: &[i32]) -> i32 {
    const PAST: [i32; 6] = [i32::MIN, -BILLION - 1, -1, 1_000_001, BILLION + 1, i32::MAX];
    let choices = if script.random.one_in(40) {
        &PAST
    } else {
        within
    };
    script.random.pick(choices)
}

/// Start bounds from the ends and the middle of their range, mostly in order.
fn bounds_at_the_edge(script: &mut Script) -> (i32, i32) {
    const STARTS: [i32; 7] = [-BILLION, 1 - BILLION, -1, 0, 1, BILLION - 1, BILLION];
    let one = at_the_edge(script, &STARTS);
    let other = at_the_edge(script, &STARTS);
    if script.random.one_in(20) {
        (one, other)
    } else {
        (one.min(other), one.max(other))
    }
}

/// A floor from 0 up to 2000 and many short jobs on it, then moved about until there are `target`
/// rows.
fn fill(script: &mut Script, target: usize) {
    let movers = script.random.between((4, 28));
    for _ in 0..movers {
        let start = script.random.between((0, 1990));
        let duration = script.random.between((1, 5));
        script.job(start, start, duration, 1);
    }
    script.job(0, 0, 2000, 3);
    let capacity = script.random.pick(&[7, 40, 1_000]);
    script.load(capacity);
    for _ in 0..200 {
        let missing = target.saturating_sub(script.rows().len());
        if missing == 0 {
            break;
        }
        cut(script, missing);
    }
}

/// Puts a short task on the widest row: in its middle, or at its start if one row more is enough.
fn cut(script: &mut Script, missing: usize) {
    let rows = script.rows();
    let tasks = script.tasks();
    let short = |id: &usize| tasks[*id].duration <= 5;
    let movers: Vec<usize> = (0..tasks.len()).filter(short).collect();
    let widest = rows.iter().max_by_key(|row| row.end - row.start);
    if let (Some(row), false) = (widest, movers.is_empty()) {
        let id = script.random.pick(&movers);
        let start = if missing == 1 {
            row.start
        } else {
            row.start + (row.end - row.start) / 2
        };
        script.update(id, start, start);
    }
}

/// Steps over the floor of a full table, with a look at the rows now and then.
fn steps_at_the_brim(script: &mut Script) {
    let style = Style {
        starts: (-20, 2010),
        steps: (4, 8),
        ..COMMON
    };
    for _ in 0..4 {
        script.steps(&style);
        script.table();
    }
}

/// A table of 120 to 128 rows, and steps there.
fn full(script: &mut Script) {
    let target = script.random.between((120, 128)) as usize;
    fill(script, target);
    script.table();
    steps_at_the_brim(script);
}

/// A second long task grows at one or both ends over a full table.
fn grown(script: &mut Script) {
    script.job(-50, 3000, 900, 2);
    fill(script, Plan::ROWS - 2);
    for _ in 0..12 {
        let id = 1;
        let from = script.random.between((-10, 400));
        let until = from + script.random.between((1, 900));
        script.lay(id, from, until);
        let (less, more) = (
            script.random.pick(&[0, 1, 7]),
            script.random.pick(&[0, 2, 9]),
        );
        if until + more - from + less <= 900 {
            script.lay(id, from - less, until + more);
        }
        if script.random.one_in(3) {
            script.table();
        }
    }
    steps_at_the_brim(script);
}

/// A second long task, partly alone on the left of the floor, shrinks at one or both ends in a full
/// table: the right end adds a row, the left end may take away more than that.
fn shrunk(script: &mut Script) {
    let alone = script.random.between((1, 30));
    script.job(-alone, -alone, 1_000, 2);
    let rows = script.random.pick(&[Plan::ROWS, Plan::ROWS - 1]);
    fill(script, rows);
    script.table();
    for _ in 0..8 {
        let from = script.random.pick(&[-alone, 0, 0, -1, 5]);
        let until = script.random.between((100, 1_000 - alone));
        script.lay(1, from, until);
        if script.random.one_in(3) {
            script.lay(1, -alone, 1_000 - alone);
        }
        if script.random.one_in(2) {
            cut(script, 1);
        }
    }
    script.table();
    steps_at_the_brim(script);
}

/// Short jobs with gaps between, and long ones laid over all of them, shrunk and grown.
fn long(script: &mut Script) {
    let short = script.random.between((5, 29));
    for place in 0..short {
        let duration = script.random.between((1, 12));
        script.job(20 * place, 20 * place, duration, 1);
    }
    for _ in 0..3 {
        script.job(-1_000, 5_000, 700, 2);
    }
    let capacity = script.random.pick(&[5, 7, 40]);
    script.load(capacity);
    for _ in 0..script.random.between((4, 16)) {
        let id = script.random.below(3);
        let from = script.random.between((-60, 20 * short));
        let until = from + script.random.between((1, 700));
        script.lay(id, from, until);
        if script.random.one_in(3) {
            script.table();
        }
    }
    script.table();
}

/// 32 jobs that all cover one instant, then steps that take them out and put them back.
fn stack(script: &mut Script) {
    let step = script.random.pick(&[0, 1, 3]);
    let usages = script.random.pick(&[(1, 1), (1, 9)]);
    for place in 0..Plan::JOBS as i32 {
        let usage = script.random.between(usages);
        let start = 200 - step * place;
        script.job(start, start, 2 * step * place + 3, usage);
    }
    let capacity = script.random.pick(&[20, 100, 400]);
    script.load(capacity);
    script.table();
    let style = Style {
        starts: (90, 310),
        windows: (0, 300),
        steps: (3, 9),
        ..COMMON
    };
    for _ in 0..4 {
        script.steps(&style);
        script.table();
    }
}
