//! Families as text, in the form of the customer's `vectors/FORMAT.md`: calls that share the run's and the samples' ledgers, and their
//! answers. Where a `G` line may stand, `N SAMPLE` names the sample of the families after it, and `GS SAMPLE` with 20 counts sets
//! its ledger; from the first `N` on each answer ends in `TS SAMPLE` with that sample's ledger.

mod read;

use super::Columns;
use crate::{
    Ending, FamilyAnswer, Ledger, Lent, Marks, Options, Record, Refusal, Results, Samples, family,
};
use std::fmt::{self, Display, Formatter, Write};

pub use read::read;

/// What one call is asked.
#[derive(Clone, Debug)]
pub struct Call {
    /// In the place of the one that the call before left.
    pub ledger: Option<Ledger>,
    /// The sample of this call and of those after it.
    pub sample: Option<u32>,
    /// Ledgers of samples, each in the place of the one there.
    pub sample_ledgers: Vec<(u32, Ledger)>,
    pub records: Vec<Record>,
    pub ops: Vec<u32>,
    pub options: Options,
    /// R1's and R2's, where present.
    pub strands: [Option<Columns>; 2],
    /// Places of each result column, of each list column, and words of the marks.
    pub places: [usize; 3],
}

/// Lent room of any size: duplex, R1's and R2's strand, the list, the marks.
#[derive(Clone, Debug, PartialEq)]
pub struct Buffers {
    pub strands: [Columns; 3],
    pub listed: Vec<u32>,
    pub reasons: Vec<u8>,
    pub marks: Vec<u64>,
}

/// What goes from call to call.
#[derive(Clone, Debug, Default, PartialEq)]
pub struct Books {
    pub ledger: Ledger,
    pub samples: Samples,
    /// The sample named last; until then calls are for sample 0.
    pub named: Option<u32>,
}

impl Books {
    /// The lines before a call.
    pub fn open(&mut self, call: &Call) {
        self.ledger = call.ledger.unwrap_or(self.ledger);
        self.named = call.sample.or(self.named);
        for (sample, ledger) in &call.sample_ledgers {
            self.samples.replace(*sample, *ledger);
        }
    }

    /// The sample of the next call.
    pub fn sample(&self) -> u32 {
        self.named.unwrap_or(0)
    }
}

impl Call {
    /// The answer; its ledger is in the books as well.
    pub fn ask(&self, books: &mut Books, buffers: &mut Buffers) -> FamilyAnswer {
        let [r1, r2] = self.strands.each_ref().map(|strand| strand.as_ref().map(Columns::strand));
        let (records, ops, options) = (&self.records, &self.ops, &self.options);
        let (ledger, sample, samples) = (books.ledger, books.sample(), &mut books.samples);
        let answer = family(records, ops, options, r1, r2, ledger, sample, samples, buffers.lend());
        books.ledger = answer.ledger;
        answer
    }

    /// Room of the wanted size, every byte of it the same.
    pub fn buffers(&self, byte: u8) -> Buffers {
        let [columns, list, marks] = self.places;
        Buffers {
            strands: [(); 3].map(|()| Columns::filled(columns, byte)),
            listed: vec![u32::from_le_bytes([byte; 4]); list],
            reasons: vec![byte; list],
            marks: vec![u64::from_le_bytes([byte; 8]); marks],
        }
    }
}

impl Buffers {
    pub fn lend(&mut self) -> Lent<'_> {
        let [duplex, r1, r2] = self.strands.each_mut().map(Columns::results);
        let Buffers { listed, reasons, marks, .. } = self;
        Lent { duplex, r1, r2, listed, reasons, marks }
    }

    /// The list, place by place.
    pub fn list(&self, listed: usize) -> Vec<(u32, u8)> {
        self.listed.iter().copied().zip(self.reasons.iter().copied()).take(listed).collect()
    }

    /// Puts the answer's places back to what they were: afterwards both are equal, or more than the answer was written.
    pub fn restore(&mut self, before: &Buffers, answer: &FamilyAnswer) {
        let length = match answer.ending {
            Ending::Refused(_) => return,
            Ending::Called { length } => length,
            _ => 0,
        };
        for (strand, was) in self.strands.iter_mut().zip(&before.strands) {
            let Results { bases, quals, depths, errors } = strand.results();
            put_back(bases, &was.bases, length);
            put_back(quals, &was.quals, length);
            put_back(depths, &was.depths, length);
            put_back(errors, &was.errors, length);
        }
        put_back(&mut self.listed, &before.listed, answer.listed);
        put_back(&mut self.reasons, &before.reasons, answer.listed);
        put_back(&mut self.marks, &before.marks, Marks::default().len());
    }
}

fn put_back<T: Copy>(column: &mut [T], was: &[T], places: usize) {
    column.iter_mut().zip(was).take(places).for_each(|(place, &was)| *place = was);
}

/// The answer to a call, with what the buffers hold of it; an error where more was written than that.
pub fn answered(call: &Call, books: &mut Books) -> Result<String, String> {
    books.open(call);
    let before = call.buffers(0xa5);
    let mut buffers = before.clone();
    let mut others = books.samples.clone();
    let answer = call.ask(books, &mut buffers);
    let named = books.named.and_then(|sample| Some((sample, books.samples.ledger(sample)?)));
    let text = Answered { answer: &answer, buffers: &buffers, named }.to_string();
    buffers.restore(&before, &answer);
    if let Some(own) = books.samples.ledger(books.sample()) {
        others.replace(books.sample(), own);
    }
    if buffers != before || books.samples != others {
        return Err(format!("written beyond the answer of\n{call}{text}"));
    }
    Ok(text)
}

/// An answer beside the buffers that it went into, and the named sample's ledger after it.
pub struct Answered<'a> {
    pub answer: &'a FamilyAnswer,
    pub buffers: &'a Buffers,
    pub named: Option<(u32, Ledger)>,
}

impl Display for Answered<'_> {
    fn fmt(&self, f: &mut Formatter<'_>) -> fmt::Result {
        let FamilyAnswer { ending, listed, ledger } = self.answer;
        writeln!(f, "A {ending}")?;
        if !matches!(ending, Ending::Refused(_)) {
            let list = self.buffers.list(*listed);
            line(f, "L", list.iter().map(|(record, reason)| format!("{record}:{reason}")))?;
            line(f, "M", self.buffers.marks.iter().take(8))?;
        }
        if let Ending::Called { length } = ending {
            for (name, strand) in ["D", "1", "2"].iter().zip(&self.buffers.strands) {
                write_strand(f, name, &strand.first(*length))?;
            }
        }
        line(f, "T", ledger.counts())?;
        self.named.iter().try_for_each(|(sample, ledger)| write_sample(f, "TS", *sample, ledger))
    }
}

impl Display for Ending {
    fn fmt(&self, f: &mut Formatter<'_>) -> fmt::Result {
        match self {
            Ending::Called { length } => write!(f, "called {length}"),
            Ending::Empty => f.write_str("empty"),
            Ending::NoStrand => f.write_str("nostrand"),
            Ending::Rejected(reason) => write!(f, "rejected {}", *reason as u8),
            Ending::Refused(Refusal { number, with }) => write!(f, "refused {number} {with}"),
        }
    }
}

impl Display for Call {
    fn fmt(&self, f: &mut Formatter<'_>) -> fmt::Result {
        if let Some(ledger) = &self.ledger {
            line(f, "G", ledger.counts())?;
        }
        if let Some(sample) = self.sample {
            writeln!(f, "N {sample}")?;
        }
        for (sample, ledger) in &self.sample_ledgers {
            write_sample(f, "GS", *sample, ledger)?;
        }
        let o = &self.options;
        let present = self.strands.each_ref().map(|strand| u8::from(strand.is_some()));
        line(
            f,
            "F",
            [
                self.records.len().to_string(),
                self.ops.len().to_string(),
                o.min_reads_per_strand.to_string(),
                or_none(o.max_reads_per_strand),
                o.min_duplex_length.to_string(),
                u8::from(o.legacy_overlap_window).to_string(),
                o.outer_bases_length.to_string(),
                or_none(o.outer_bases_qual),
                or_none(o.single_strand_qual),
                o.max_duplex_disagreements.to_string(),
                o.max_duplex_disagreement_rate.to_bits().to_string(),
            ]
            .into_iter()
            .chain(present.map(|flag| flag.to_string()))
            .chain(self.places.map(|places| places.to_string())),
        )?;
        for r in &self.records {
            let Record { flags, name, verdict, rank, clipped, position, start, count } = r;
            let verdict = u8::from(*verdict);
            writeln!(f, "R {flags} {name} {verdict} {rank} {clipped} {position} {start} {count}")?;
        }
        line(f, "O", &self.ops)?;
        self.strands.iter().flatten().try_for_each(|strand| write_strand(f, "", strand))
    }
}

fn or_none<N: Display>(value: Option<N>) -> String {
    value.map_or_else(|| "-".to_string(), |value| value.to_string())
}

fn write_sample(f: &mut Formatter<'_>, tag: &str, sample: u32, ledger: &Ledger) -> fmt::Result {
    line(f, &format!("{tag} {sample}"), ledger.counts())
}

fn write_strand(f: &mut Formatter<'_>, name: &str, strand: &Columns) -> fmt::Result {
    write!(f, "{name}B")?;
    if !strand.bases.is_empty() {
        f.write_char(' ')?;
        strand.bases.iter().try_for_each(|&base| f.write_char(char::from(base)))?;
    }
    f.write_char('\n')?;
    line(f, &format!("{name}Q"), &strand.quals)?;
    line(f, &format!("{name}D"), &strand.depths)?;
    line(f, &format!("{name}E"), &strand.errors)
}

fn line<N: Display>(
    f: &mut Formatter<'_>,
    name: &str,
    values: impl IntoIterator<Item = N>,
) -> fmt::Result {
    f.write_str(name)?;
    values.into_iter().try_for_each(|value| write!(f, " {value}"))?;
    f.write_str("\n")
}
