//! Jobs through the proved program and the reference: the files of
//! examples/jobs, long texts, and thousands at random, whole and damaged.

use compare::program::Program;
use compare::{jobs, seed};
use reference::answer::NUMBERS;
use reference::history::History;
use reference::job::{self, Packed};
use reference::limits::record_need;
use reference::reader;
use std::path::Path;
use std::thread;

/// So many run at a time.
const THREADS: usize = 2;

#[derive(Default)]
struct Seen {
    told: [usize; NUMBERS],
    /// Tables by how many objects they have: 1, up to 4, up to 16, more.
    pieces: [usize; 4],
    /// Refusals by their lines: a limit's, up to 10, up to 100, more.
    lines: [usize; 4],
}

impl Seen {
    fn run(&mut self, program: &Program, text: &[u8]) {
        let expected = job::run(text);
        let told = String::from_utf8_lossy(&program.printed(text)).into_owned();
        let shown = String::from_utf8_lossy(&text[..text.len().min(2_000)]);
        assert_eq!(told, job::shown(&expected), "{shown}");
        let group = |count: u64, ends: [u64; 3]| ends.iter().filter(|&&end| count > end).count();
        match expected {
            Ok(Packed { pieces, table }) => {
                let (history, root) = history(text);
                assert_eq!(history.table_pieces(root), Some(pieces));
                assert_eq!(history.table_length(root), Some(table.len() as u64));
                let reading = history.reading(root).expect("closed");
                assert!(reader::shows(&table, reading), "{shown}");
                self.told[0] += 1;
                self.pieces[group(pieces, [1, 4, 16])] += 1;
            }
            Err(refused) => {
                self.told[refused.number as usize] += 1;
                self.lines[group(refused.line as u64, [3, 10, 100])] += 1;
            }
        }
    }

    fn add(&mut self, other: &Seen) {
        let counts = self.told.iter_mut().zip(other.told);
        let counts = counts.chain(self.pieces.iter_mut().zip(other.pieces));
        for (sum, count) in counts.chain(self.lines.iter_mut().zip(other.lines)) {
            *sum += count;
        }
    }

    fn report(&self) {
        for (number, count) in self
            .told
            .iter()
            .enumerate()
            .filter(|(_, count)| **count > 0)
        {
            println!("  number {number:2}: {count}");
        }
        println!(
            "  tables of 1, up to 4, up to 16 and more objects: {:?}",
            self.pieces
        );
        println!(
            "  refused at a limit, up to line 10, 100 and later: {:?}",
            self.lines
        );
    }
}

/// The history of an accepted job's calls, and the root.
fn history(text: &[u8]) -> (History, u32) {
    let text = std::str::from_utf8(text).expect("text");
    let mut lines = text
        .lines()
        .map(|line| line.split_once('=').expect("a key"));
    let number = |digits: &str| digits.parse::<u32>().expect("a number");
    let [bytes, pieces, links] = [(); 3].map(|()| number(lines.next().expect("a limit").1));
    let records = record_need(pieces.into(), links.into()) as usize;
    let history = History::begin(pieces, links, bytes as usize, records);
    let (mut history, mut ids) = (history.expect("started"), Vec::new());
    for (key, value) in lines {
        if key != "link" && history.tally().depth > 0 {
            let closed = history.close();
            assert_eq!(closed.number, 0);
            ids.push(closed.id as u32);
        }
        match value.split_once(',') {
            Some((width, piece)) => {
                let id = ids[number(piece) as usize];
                assert_eq!(history.link(number(width), id, 0).number, 0);
            }
            None if key == "piece" => {
                let byte = |at| u8::from_str_radix(&value[at..at + 2], 16).expect("a pair");
                let bytes: Vec<u8> = (0..value.len()).step_by(2).map(byte).collect();
                assert_eq!(history.open().number, 0);
                assert_eq!(history.put(&bytes).number, 0);
            }
            None => assert_eq!((key, number(value) as usize), ("end", ids.len())),
        }
    }
    (history, *ids.last().expect("a piece"))
}

/// Runs texts side by side.
fn run(texts: &[Vec<u8>]) -> Seen {
    let program = Program::job();
    let mut seen = Seen::default();
    thread::scope(|scope| {
        let shares = texts.chunks(texts.len().div_ceil(THREADS));
        let running: Vec<_> = shares
            .map(|share| {
                let program = &program;
                scope.spawn(move || {
                    let mut seen = Seen::default();
                    share.iter().for_each(|text| seen.run(program, text));
                    seen
                })
            })
            .collect();
        for share in running {
            seen.add(&share.join().expect("a job differs"));
        }
    });
    seen
}

#[test]
fn job_files() {
    let folder = Path::new(env!("CARGO_MANIFEST_DIR")).join("../../examples/jobs");
    let program = Program::job();
    let mut count = 0;
    for entry in std::fs::read_dir(&folder).expect("examples/jobs") {
        let path = entry.expect("a file").path();
        if path.extension().is_some_and(|extension| extension == "job") {
            let text = std::fs::read(&path).expect("a job");
            let expected = std::fs::read(path.with_extension("expected")).expect("what it prints");
            assert_eq!(program.printed(&text), expected, "{}", path.display());
            count += 1;
        }
    }
    println!("  {count} job files");
    assert!(count >= 80);
}

/// Thousands of lines, and texts at the edge of what is read.
#[test]
fn long_jobs() {
    let longest = jobs::of_length(65_536);
    let mut texts = vec![
        longest.clone(),
        jobs::of_length(65_535),
        jobs::of_length(65_537),
        longest[..65_535].to_vec(),
        [&longest[..], b"\n"].concat(),
        vec![b'\n'; 65_536],
        vec![b'\n'; 65_537],
        vec![b'x'; 200_000],
        [&jobs::of_length(65_530)[..], b"piece=\n"].concat(),
        [&jobs::of_length(65_529)[..], b"piece=\n"].concat(),
    ];
    let equal = "piece=64\n".repeat(7_000);
    for (limits, behind) in [
        ("bytes=2\nobjects=1\nlinks=0\n", "end=7000\n"),
        ("bytes=2\nobjects=1\nlinks=0\n", "end=6999\n"),
        ("bytes=1\nobjects=1\nlinks=0\n", "end=7000\n"),
        (
            "bytes=4\nobjects=2\nlinks=1\n",
            "piece=61\nlink=2,6999\nend=7001\n",
        ),
        (
            "bytes=4\nobjects=2\nlinks=1\n",
            "piece=61\nlink=2,7000\nend=7001\n",
        ),
        (
            "bytes=4\nobjects=1\nlinks=1\n",
            "piece=61\nlink=2,0\nend=7001\n",
        ),
    ] {
        texts.push(format!("{limits}{equal}{behind}").into_bytes());
    }
    // A store filled to its last byte, and one byte past it.
    for more in ["78", "7878"] {
        let filled = "61".repeat(16_383);
        let text = format!("bytes=16384\nobjects=256\nlinks=1024\npiece={filled}{more}\nend=1\n");
        texts.push(text.into_bytes());
    }
    // As many objects and links as may be, a chain, and one more of each.
    for (objects, more) in [(256, ""), (257, ""), (256, "link=2,0\n")] {
        let piece = |at: usize| match at {
            0 => "piece=78\n".to_string(),
            _ => format!("piece=78\nlink=2,{}\n", at - 1),
        };
        let chain: String = (0..objects).map(piece).collect();
        let text = format!("bytes=16384\nobjects=256\nlinks=255\n{chain}{more}end={objects}\n");
        texts.push(text.into_bytes());
    }
    for links in [1_022, 1_023, 1_024, 1_025] {
        let fields = "link=2,0\n".repeat(links);
        let text = format!("bytes=16384\nobjects=2\nlinks=1024\npiece=78\npiece=\n{fields}end=2\n");
        texts.push(text.into_bytes());
    }
    let seen = run(&texts);
    seen.report();
    let [told_6, told_7, told_8] = [6, 7, 8].map(|number| seen.told[number]);
    assert!(seen.told[0] >= 9 && told_6.min(told_7).min(told_8) >= 1);
}

#[test]
fn random_jobs() {
    let mut numbers = seed::numbers("random jobs");
    let texts: Vec<Vec<u8>> = (0..20_000).map(|_| jobs::any(&mut numbers)).collect();
    let seen = run(&texts);
    println!("random jobs: {}", texts.len());
    seen.report();
    for (number, least) in [
        (0, 6_000),
        (3, 100),
        (4, 100),
        (5, 100),
        (6, 1_000),
        (7, 500),
        (8, 300),
        (13, 200),
        (14, 3_000),
    ] {
        assert!(seen.told[number] >= least, "number {number} is hardly told");
    }
    // The greatest offset and the longest object of a job fit every width.
    assert_eq!(seen.told.iter().sum::<usize>(), texts.len());
    assert_eq!((seen.told[11], seen.told[16]), (0, 0));
    assert!(seen.pieces.iter().all(|&count| count >= 30));
    assert!(seen.lines.iter().all(|&count| count >= 100));
}
