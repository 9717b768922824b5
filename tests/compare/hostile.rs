// Hostile calls, to be run under valgrind: damaged images, random bytes, records that do not fit, broken buffers, pairs and rounds
// of any ids, round sheets cut anywhere, broken bundles, any dates and windows, reports over any of these, lists and outputs without room, buffers that grow or shrink, slots of any words, loads in buffers of any length. Everything lent
// stands in a heap block of exactly its length, so that valgrind reports a read or write outside it. A refusal changes no byte,
// reading changes none, and every place in an answer lies in what was lent.
// hostile [CALLS | too-much]
mod archive;
mod by_slots;
mod damage;
mod names;
mod original;
mod rules;
mod seed;
mod spoil;
mod tally;
mod writing;

use archive::{Counts, Date, IdAnswer, Pair, Record, StrAnswer, Window};
use rules::HEAD;
use seed::Random;
use tally::Tally;
use writing::State;

const CALLS: u64 = 1_000_000;

struct Run {
    tally: Tally,
    calls: u64,
    refused: u64,
    images: u64,
    states: u64,
    rounds: u64,
    sheets: u64,
    repeated: u64,
    bundles: u64,
    loads: u64,
    seasons: u64,
    pairs: u64,
    reports: u64,
    lists: u64,
    slots: u64,
}

// A heap block of exactly these bytes.
fn exact(bytes: &[u8]) -> Box<[u8]> {
    bytes.into()
}

impl Run {
    fn read(&mut self, random: &mut Random, image: &[u8], names: &[Box<[u8]>]) {
        let refusal = archive::open(image).refusal;
        self.tally.rule([0, 1, 5, 6, 7, 8].contains(&refusal), true, || format!("opening gave {refusal}"));
        self.refused += u64::from(refusal > 0);
        for name in names {
            let answer = archive::to_id(image, name);
            self.tally.rule(answer.found <= 1, true, || format!("{answer:?}"));
        }
        let back = if image.len() < HEAD { 0 } else { rules::back_size(image) as u32 };
        let ids = [0, 1, back.wrapping_sub(1), back, random.word(), u32::MAX, random.below(20) as u32];
        for id in ids {
            let answer = archive::to_str(image, id);
            self.tally.rule(answer.start + u64::from(answer.len) <= image.len() as u64, true, || format!("{answer:?}"));
            let panel = archive::panel(image, id);
            self.tally.rule((panel.found, panel.start), (answer.found, answer.start), || format!("{panel:?}"));
            self.tally.rule(panel.len <= answer.len, true, || format!("{panel:?}"));
            let home = archive::home(image, id);
            self.tally.rule(home <= answer.found, true, || format!("home gave {home}"));
            archive::size_hint(image, id);
        }
        let agree = archive::readings_agree(image);
        self.tally.rule(agree <= 1, true, || format!("the check of both readings gave {agree}"));
        let is_canonical = archive::canonical(image);
        self.tally.rule(is_canonical <= u32::from(refusal == 0), true, || format!("canonical gave {is_canonical}"));
        self.calls += 3 + names.len() as u64 + 4 * ids.len() as u64;
        self.places(random, image);
        self.one_to_one(image, is_canonical);
        self.average(random, image, is_canonical);
        self.page(random, image);
        self.whole_round(random, image, names, &ids);
    }

    // The entry at any offset and the table of any hash, by their rules.
    fn places(&mut self, random: &mut Random, image: &[u8]) {
        let len = image.len() as u32;
        for offset in [0, 1, HEAD as u32, len.wrapping_sub(9), len, random.word(), random.below(image.len() + 1) as u32] {
            let answer = archive::entry(image, offset);
            let due = rules::entry(image, offset).map_or((0, 0, 0, 0), |(id, (start, n))| (1, id, n as u32, start as u64));
            self.tally.rule((answer.found, answer.id, answer.len, answer.start), due, || format!("the entry at {offset}"));
        }
        for hash in [0, 255, random.word(), random.word()] {
            let answer = archive::table(image, hash);
            let due = rules::table_of(image, hash).unwrap_or((0, 0));
            self.tally.rule((answer.buckets.into(), answer.start.into()), due, || format!("the table of {hash}"));
        }
        self.calls += 11;
    }

    // A whole round of these names, and of these ids, each some times over, with ends that may be anything and places that may be too
    // few: what is refused leaves every place, and places behind the last keep their content.
    fn whole_round(&mut self, random: &mut Random, image: &[u8], names: &[Box<[u8]>], ids: &[u32]) {
        let n = random.pick(&[0, 1, 3, 20, 20, 512, 513]);
        let mut joined = Vec::new();
        let mut ends = Vec::new();
        for i in 0..n {
            joined.extend_from_slice(&names[i % names.len()]);
            ends.push(joined.len() as u64);
        }
        if random.once_in(3) && n > 0 {
            ends[random.below(n)] = random.pick(&[0, 1, joined.len() as u64 + 1, u64::MAX, 1 << 63]);
        }
        let (bytes, ends) = (exact(&joined), ends.into_boxed_slice());
        let places = random.pick(&[n, n + 2, n.saturating_sub(1), 0]);
        let before: Box<[IdAnswer]> =
            vec![IdAnswer { found: random.word(), id: 7, buckets: random.word(), offset: 9 }; places].into();
        let mut answers = before.clone();
        let answer = archive::round(image, &bytes, &ends, &mut answers);
        let kept = if answer.refusal > 0 { 0 } else { n };
        self.tally.rule([0, 14, 15].contains(&answer.refusal), true, || format!("{answer:?} of {n} names"));
        self.tally.rule(answers[kept..] == before[kept..], true, || format!("the places behind {kept} of {n} names"));
        self.tally.rule(answers[..kept].iter().all(|a| a.found <= 1), true, || format!("the places of {n} names"));
        let asked: Box<[u32]> = (0..n).map(|i| ids[i % ids.len()]).collect();
        let before: Box<[StrAnswer]> =
            vec![StrAnswer { found: random.word(), len: random.word(), start: random.next() }; places].into();
        let mut named = before.clone();
        let refusal = archive::name_round(image, &asked, &mut named);
        let kept = if refusal > 0 { 0 } else { n };
        self.tally.rule([0, 14, 15].contains(&refusal), true, || format!("{refusal} of {n} ids"));
        self.tally.rule(named[kept..] == before[kept..], true, || format!("the places behind {kept} of {n} ids"));
        let inside = |a: &StrAnswer| a.start + u64::from(a.len) <= image.len() as u64;
        self.tally.rule(named[..kept].iter().all(inside), true, || format!("the places of {n} ids"));
        self.refused += u64::from(answer.refusal > 0) + u64::from(refusal > 0);
        self.calls += 2;
    }

    // Whether names and ids are one to one: refused where the image is not canonical; the entry that fails lies in the image.
    fn one_to_one(&mut self, image: &[u8], is_canonical: u32) {
        let answer = archive::one_to_one(image);
        let entry = answer.offset as usize;
        let fits = match (answer.refusal, answer.ok, answer.kind) {
            (0, 1, 0) | (17, 0, 0) => entry == 0,
            (0, 0, 1 | 2) => entry >= HEAD && entry + 9 <= image.len(),
            _ => false,
        };
        self.tally.rule(fits, true, || format!("{answer:?}"));
        self.tally.rule(answer.refusal == 0, is_canonical == 1, || format!("{answer:?} of {is_canonical}"));
        self.refused += u64::from(answer.refusal > 0);
        self.calls += 1;
    }

    // The average search length and its counts: refused where the image is not canonical, and then no count is changed.
    fn average(&mut self, random: &mut Random, image: &[u8], is_canonical: u32) {
        let answer = archive::average(image);
        let fits = match answer.refusal {
            0 => is_canonical == 1 && answer.remainder < u64::from(answer.entries) && answer.quotient > 0,
            k => k == 18 - (1 - is_canonical) && (answer.entries, answer.quotient, answer.remainder) == (0, 0, 0),
        };
        self.tally.rule(fits, true, || format!("{answer:?} of an image that canonical gave {is_canonical}"));
        let before: Box<[u32; 16]> = Box::new([random.word(); 16]);
        let mut counts = before.clone();
        let refusal = archive::lengths(image, &mut counts);
        let due = if refusal == 0 { counts.iter().map(|&count| u64::from(count)).sum() } else { 0 };
        self.tally.rule((refusal, due), (answer.refusal, u64::from(answer.entries)), || "the sum of the counts".into());
        self.tally.rule(refusal == 0 || counts == before, true, || "the counts of a refused call".into());
        self.refused += 2 * u64::from(refusal > 0);
        self.calls += 2;
    }

    // The page, in an output of its length, of a little more, or of less, where it is refused.
    fn page(&mut self, random: &mut Random, image: &[u8]) {
        let length = archive::page_length(image) as usize;
        let less = random.below(length + 1);
        let room = random.pick(&[length, length + 1, length + 46, length.saturating_sub(1), less]);
        let mut out = exact(&random.bytes(room));
        let before = out.clone();
        let answer = archive::page(image, &mut out);
        let printed = if answer.refusal > 0 { 0 } else { length };
        self.refused += u64::from(answer.refusal > 0);
        let wanted = if room < length { (12, 0) } else { (0, length as u64) };
        self.tally.rule((answer.refusal, answer.length), wanted, || format!("{answer:?} of {length} in {room}"));
        self.tally.bytes(&out[printed..], &before[printed..], || "the bytes behind a page".into());
        let plain = |(i, &b): (usize, &u8)| if i % 45 == 44 { b == 10 } else { (32..=126).contains(&b) };
        self.tally.rule(out[..printed].iter().enumerate().all(plain), true, || "the bytes of a page".into());
        self.calls += 2;
    }

    // One image and what is asked of it; afterwards it has the same bytes.
    fn image(&mut self, random: &mut Random, bytes: &[u8], names: &[Box<[u8]>]) {
        let image = exact(bytes);
        self.read(random, &image, names);
        self.images += 1;
        self.tally.bytes(&image, bytes, || "an image that was read".into());
    }

    // A put of a name that is there, or of another, and a close on one state.
    fn write(&mut self, random: &mut Random, s: &State, names: &[Box<[u8]>]) {
        let mut buf = exact(&s.buf);
        let mut counts: Box<Counts> = Box::new(s.counts);
        let name = if random.once_in(2) { names[random.below(names.len())].clone() } else { exact(&names::any(random)) };
        let id = random.pick(&[0, 9, s.record.back, 0xffff_fffe, 0xffff_ffff]);
        let answer = archive::put(s.record, &mut counts, &mut buf, &name, id);
        if answer.refusal > 0 {
            self.unchanged((answer.record, &counts, &buf), s, "a refused put");
            self.repeated += u64::from(answer.refusal == 16);
        }
        let after = State { record: answer.record, counts: *counts, buf: buf.to_vec() };
        let answer = archive::close(after.record, &counts, &mut buf);
        if answer.refusal > 0 {
            self.unchanged((after.record, &counts, &buf), &after, "a refused close");
        } else {
            let (size, end) = (answer.size as usize, after.record.end as usize);
            self.tally.bytes(&buf[HEAD..end], &after.buf[HEAD..end], || "the entries after a close".into());
            self.tally.bytes(&buf[size..], &after.buf[size..], || "the bytes behind an image".into());
        }
        self.calls += 2;
        self.states += 1;
    }

    // One round of ids and some pairs. Where it fails, the place is one of the list.
    fn order(&mut self, random: &mut Random) {
        let ids = random.pick(&[2, 3, 9, 400]);
        let id = |random: &mut Random| if random.once_in(9) { random.word() } else { random.below(ids) as u32 };
        let pairs: Box<[Pair]> = (0..random.below(7)).map(|_| Pair { reference: id(random), wall: id(random) }).collect();
        let round: Box<[u32]> = (0..random.below(40)).map(|_| id(random)).collect();
        let before = (pairs.clone(), round.clone());
        let answer = archive::references_first(&pairs, &round);
        let in_list = if answer.ok == 1 { answer.pair == 0 } else { answer.ok == 0 && answer.pair < pairs.len() as u64 };
        self.tally.rule(in_list, true, || format!("{answer:?} of {} pairs", pairs.len()));
        self.tally.rule((pairs, round) == before, true, || "pairs and a round that were read".into());
        self.calls += 1;
        self.rounds += 1;
    }

    // A round sheet written into a buffer that may be too short for it, then read whole, cut, longer or damaged: the parts lie in
    // the file, and what is refused leaves zeros.
    fn sheet(&mut self, random: &mut Random) {
        let lists = [(); 3].map(|()| (0..random.below(20)).map(|_| random.word()).collect::<Box<[u32]>>());
        let lent = [&lists[0][..], &lists[1], &lists[2]];
        let length = 6 + 4 * lent.iter().map(|list| list.len()).sum::<usize>();
        let more = random.below(50);
        let room = random.pick(&[0, length - 1, length, length + 1, length + more]);
        let before = random.bytes(room);
        let mut buf = exact(&before);
        let answer = archive::sheet_write(&mut buf, lent);
        let due = if room < length { (21, 0) } else { (0, length) };
        self.tally.rule((answer.refusal, answer.length as usize), due, || format!("{answer:?} in {room} bytes"));
        self.tally.bytes(&buf[due.1..], &before[due.1..], || "the bytes behind a sheet".into());
        self.refused += u64::from(answer.refusal > 0);
        let mut file = if random.once_in(4) { before } else { buf[..due.1].to_vec() };
        if random.once_in(2) && !file.is_empty() {
            let at = random.below(file.len());
            file[at] = random.pick(&[0, 1, 2, 255]);
        }
        let n = if random.once_in(2) { file.len() } else { random.below(file.len() + 3) };
        file.resize(n, 0);
        let (file, before) = (exact(&file), file);
        let answer = archive::sheet_read(&file);
        let inside = (0..3).all(|s| answer.starts[s] + 4 * u64::from(answer.counts[s]) <= n as u64);
        let zeros = answer.counts == [0; 3] && answer.starts == [0; 3];
        let so = if answer.refusal == 0 { inside } else { [19, 20].contains(&answer.refusal) && zeros };
        self.tally.rule(so, true, || format!("{answer:?} of {n} bytes"));
        self.tally.bytes(&file, &before, || "a sheet that was read".into());
        self.refused += u64::from(answer.refusal > 0);
        self.calls += 2;
        self.sheets += 1;
    }

    // One file of images, opened at some positions and counted; then an append to it, or to another part of its buffer.
    fn bundle(&mut self, random: &mut Random, images: &[Vec<u8>]) {
        let mut file: Vec<u8> = (0..random.below(4)).flat_map(|_| images[random.below(images.len())].clone()).collect();
        match random.below(4) {
            0 => file.truncate(random.below(file.len() + 1)),
            1 => file.extend(vec![random.word() as u8; random.below(2080)]),
            _ => {}
        }
        let file = exact(&file);
        for position in [0, 1, 2, 3, random.next()] {
            let answer = archive::bundle_open(&file, position);
            let inside = answer.start + answer.size <= file.len() as u64
                && (answer.refusal == 0) == (answer.size >= HEAD as u64);
            self.tally.rule(inside, true, || format!("{answer:?}"));
            self.refused += u64::from(answer.refusal > 0);
        }
        let counted = archive::bundle_count(&file);
        self.tally.rule(counted.images <= (file.len() / HEAD) as u64, true, || format!("{counted:?}"));
        let image = exact(&images[random.below(images.len())]);
        let room = (file.len() + image.len() + random.below(3)).saturating_sub(1);
        let mut before = file.to_vec();
        before.resize(room, 7);
        let mut buf = exact(&before);
        let end = random.pick(&[file.len(), file.len(), file.len(), 0, room, room + 1, usize::MAX]);
        let answer = archive::bundle_append(&mut buf, end as u64, &image);
        if answer.refusal > 0 {
            self.refused += 1;
            self.tally.bytes(&buf, &before, || "the buffer after a refused append".into());
        } else {
            before[end..end + image.len()].copy_from_slice(&image);
            self.tally.bytes(&buf, &before, || "the buffer after an append".into());
        }
        self.calls += 7;
        self.bundles += 1;
    }

    // The load of any seed in a buffer of any length: the image lies in its front, and nothing behind it is changed.
    fn load(&mut self, random: &mut Random) {
        let any = 1_900 + random.below(400);
        let room = random.pick(&[0, 2_071, 2_072, 2_109, 2_110, any, any, any]);
        let before = random.bytes(room);
        let mut buf = exact(&before);
        let answer = archive::load(random.word(), &mut buf);
        let entries = room.saturating_sub(HEAD) / 38;
        let (size, due) = if room < HEAD { (0, (1, 0)) } else { (HEAD + 38 * entries, (0, entries as u32)) };
        self.tally.rule((answer.refusal, answer.accepted), due, || format!("{answer:?} in {room} bytes"));
        self.tally.bytes(&buf[size..], &before[size..], || "the bytes behind a load".into());
        self.refused += u64::from(answer.refusal > 0);
        self.calls += 1;
        self.loads += 1;
    }

    // Any ends, ids, places, buffers and lent memory: a list is answered in what it is lent, or refused with 2, 14, 15 or 1, and
    // then nothing changes.
    fn list(&mut self, random: &mut Random) {
        let (n, size) = (random.below(12), random.below(60));
        let names = exact(&random.bytes(size));
        let mut ends: Vec<u64> = (0..n).map(|_| random.below(size + 1) as u64).collect();
        ends.sort_unstable();
        if n > 0 && random.once_in(4) {
            ends[random.below(n)] = random.pick(&[0, size as u64 + 1, u64::MAX]);
        }
        let words = |random: &mut Random, k: usize| -> Box<[u32]> { (0..k).map(|_| random.word() % 40).collect() };
        let much = [n, n, n, n + 1, n.saturating_sub(1)];
        let (ids, places, lent) = (random.pick(&much), random.pick(&much), random.pick(&[0, 1, n, 2 * n, 3 * n, 4 * n]));
        let (ids, before, mut scratch) = (words(random, ids), words(random, places), words(random, lent));
        let room = random.pick(&[0, 2_071, 2_072, 2_300, 3_000]);
        let first = random.bytes(room);
        let (ends, mut buf, mut answers) = (ends.into_boxed_slice(), exact(&first), before.clone());
        let (mode, repeats) = (random.pick(&[0, 0, 1, 2]), random.pick(&[0, 0, 1, 2]));
        let packed = archive::Packed { names: &names, ends: &ends, ids: &ids };
        let answer = archive::build(mode, repeats, &mut buf, packed, &mut answers, &mut scratch);
        self.tally.rule([0, 1, 2, 14, 15].contains(&answer.refusal), true, || format!("{answer:?}"));
        if answer.refusal > 0 {
            self.tally.rule(answers == before, true, || "the answers of a refused list".into());
            self.tally.bytes(&buf, &first, || "the buffer of a refused list".into());
        } else {
            let size = answer.size as usize;
            self.tally.rule(archive::open(&buf[..size]).num, answer.accepted, || format!("{answer:?}"));
            let joined = ends.last().map_or(0, |end| *end as usize);
            let all = (archive::build_needs(mode, joined, &ids[..n]).bytes as usize).clamp(size, room);
            self.tally.bytes(&buf[all..], &first[all..], || "the bytes behind an image of all names".into());
        }
        self.refused += u64::from(answer.refusal > 0);
        self.calls += 1;
        self.lists += 1;
        self.needs(random, mode, packed);
    }

    // What a list needs, by the rule; in a heap block of exactly so many bytes none of its puts is refused with 3.
    fn needs(&mut self, random: &mut Random, mode: u32, list: archive::Packed<'_>) {
        let back = if mode == 0 { list.ids.iter().map(|&id| u64::from(id) + 1).max().unwrap_or(0) } else { 0 };
        let due = (HEAD + list.names.len() + 25 * list.ids.len()) as u64 + 4 * back;
        let needs = archive::build_needs(mode, list.names.len(), list.ids);
        self.tally.rule(needs.bytes, due, || format!("{needs:?} for {list:?}"));
        let long = random.pick(&[usize::MAX, usize::MAX - 2_072, usize::MAX / 2]);
        let most = archive::build_needs(mode, long, list.ids).bytes;
        self.tally.rule(u128::from(most), u128::from(u64::MAX).min(long as u128 + u128::from(due) - list.names.len() as u128), || format!("{most} for {long} bytes"));
        let (mut buf, mut answers) = (exact(&random.bytes(due as usize)), vec![0; list.ends.len()].into_boxed_slice());
        let mut scratch = vec![random.word(); random.pick(&[0, needs.words as usize])].into_boxed_slice();
        let answer = archive::build(mode, random.pick(&[0, 1]), &mut buf, list, &mut answers, &mut scratch);
        self.tally.rule(answers.contains(&3), false, || format!("{answer:?} and {answers:?} in {due} bytes"));
        self.refused += u64::from(answer.refusal > 0);
        self.calls += 3;
    }

    // A longer buffer, or a shorter one, for any record: refused with 2 where it is shorter or mode or repeats is no choice.
    fn grow(&mut self, random: &mut Random, s: &State) {
        let length = random.pick(&[0, 2_072, s.record.length, s.record.length.wrapping_add(1), s.record.length.wrapping_sub(1), u64::MAX]);
        let grown = archive::grown(s.record, length);
        let fine = s.record.mode <= 1 && s.record.repeats <= 1 && s.record.length <= length;
        let due = if fine { (0, archive::Record { length, ..s.record }) } else { (2, s.record) };
        self.tally.rule((grown.refusal, grown.record), due, || format!("{grown:?} for {length} bytes"));
        self.refused += u64::from(grown.refusal > 0);
        let (n, id) = (random.pick(&[0, 9, 4_294_967_294, 4_294_967_295, usize::MAX]), random.pick(&[0, 9, u32::MAX]));
        let size = archive::size_with(&s.record, n, id);
        let some = s.record.end < 1 << 63 && n < 4_294_967_295;
        // A mode other than 0 is taken as one-way.
        let known = Record { mode: s.record.mode.min(1), ..s.record };
        let due = if some { writing::size_with(&known, n, id) } else { u64::MAX.into() };
        self.tally.rule(u128::from(size), due, || format!("the size with {n} bytes and {id} after {:?}", s.record));
        self.calls += 2;
    }

    // A put by slots of any words, and an index made in them.
    fn indexed(&mut self, random: &mut Random, s: &State, names: &[Box<[u8]>]) {
        let (mut buf, mut counts, mut record) = (exact(&s.buf), Box::new(s.counts), Box::new(s.record));
        let some = [0, 0, 0, 1, HEAD as u32, s.record.end as u32, (s.record.end as u32).wrapping_sub(9), u32::MAX];
        let n = random.below(30);
        let before: Box<[u32]> = (0..n).map(|_| if random.once_in(4) { random.word() } else { random.pick(&some) }).collect();
        let mut slots = before.clone();
        let name = if random.once_in(2) { names[random.below(names.len())].clone() } else { exact(&names::any(random)) };
        let id = random.pick(&[0, 9, s.record.back, 0xffff_fffe, 0xffff_ffff]);
        let due = by_slots::refusal(&record, &counts, &buf, &slots, (&name, archive::hash(&name, 0).hash), id);
        let refusal = archive::put_indexed(&mut record, &mut counts, &mut buf, &mut slots, &name, id);
        self.tally.rule(refusal, due, || format!("a put of {name:?} under {id} by an index"));
        if refusal > 0 {
            self.unchanged((*record, &counts, &buf), s, "a refused put by an index");
            self.tally.rule(&slots, &before, || "the slots after a refused put".into());
        }
        let before = slots.clone();
        let refusal = archive::index(*record, &counts, &buf, &mut slots);
        self.tally.rule([0, 2, 4, 24].contains(&refusal), true, || format!("an index gave {refusal}"));
        self.tally.rule(refusal == 0 || slots == before, true, || "the slots after a refused index".into());
        self.refused += u64::from(refusal > 0);
        self.calls += 2;
        self.slots += 1;
    }

    // Any dates and windows on one image: a name lies in it, and where a list is refused the rest are zeros.
    fn season(&mut self, random: &mut Random, bytes: &[u8]) {
        let date = |random: &mut Random| {
            let [a, b, c, d] = random.word().to_le_bytes();
            let year = random.pick(&[1899, 1900, 2024, 2024, 2024, 2024, 2199, 2200, u16::from_le_bytes([a, b])]);
            let month = random.pick(&[0, 1, 2, 2, 2, 6, 12, 13, c]);
            Date { year, month, day: random.pick(&[0, 1, 1, 28, 28, 29, 30, 31, 32, d]) }
        };
        let good = |month| Date { year: 2024, month, day: 1 };
        let image = exact(bytes);
        let windows: Box<[Window]> = (0..random.below(6))
            .map(|_| {
                let odd = random.once_in(3);
                let (first, end) = if odd { (date(random), date(random)) } else { (good(1), good(7)) };
                Window { id: random.below(4) as u32, first, end }
            })
            .collect();
        let before = windows.clone();
        let asked = if random.once_in(3) { date(random) } else { good(3) };
        let id = random.pick(&[0, 1, 2, 3, u32::MAX]);
        let answer = archive::name_on(&image, id, asked, &windows);
        let named = archive::to_str(&image, id);
        let place = (answer.found, answer.len, answer.start);
        let so = match answer.refusal {
            0 if answer.found == 1 => {
                place == (named.found, named.len, named.start) && windows.iter().any(|w| w.id == id)
            }
            0 | 22 | 23 => place == (0, 0, 0),
            _ => false,
        };
        self.tally.rule(so, true, || format!("{answer:?} for {id} on {asked:?} by {windows:?}"));
        let round: Box<[u32]> = (0..random.below(4)).map(|_| random.below(4) as u32).collect();
        let held = archive::preflight_dates(&windows, &round, asked, if random.once_in(2) { asked } else { good(3) });
        let so = match (held.refusal, held.question) {
            (0, 11) => held.place < round.len() as u64,
            (0 | 22 | 23, 0) => held.place == 0,
            _ => false,
        };
        self.tally.rule(so, true, || format!("{held:?} for {round:?} by {windows:?}"));
        self.tally.rule(windows == before, true, || "windows that were read".into());
        self.tally.bytes(&image, bytes, || "an image that was asked on a date".into());
        self.refused += u64::from(answer.refusal > 0) + u64::from(held.refusal > 0);
        self.calls += 3;
        self.seasons += 1;
    }

    // Two images from any id on: both namings are those of the single calls and differ, and a moved name is found where it went.
    fn changes(&mut self, random: &mut Random, bytes: (&[u8], &[u8])) {
        let (old, new) = (exact(bytes.0), exact(bytes.1));
        let from = random.pick(&[0, 0, 1, 3, u64::from(u32::MAX), 1 << 32, u64::MAX]);
        let answer = archive::next_change(&old, &new, from);
        let named = (archive::named(&old, answer.id), archive::named(&new, answer.id));
        let so = match answer.found {
            0 => (answer.id, answer.before.found, answer.after.found) == (0, 0, 0),
            _ => {
                let places = (archive::to_str(&old, answer.id), archive::to_str(&new, answer.id));
                (answer.before, answer.after) == places && named.0 != named.1 && u64::from(answer.id) >= from
            }
        };
        self.tally.rule(so, true, || format!("{answer:?} from {from}"));
        let moved = archive::moved(&old, &new, answer.id);
        let other = named.0.and_then(|name| archive::found_id(&new, name)).filter(|&id| id != answer.id);
        self.tally.rule((moved.found == 1).then_some(moved.id), other, || format!("{moved:?} of {}", answer.id));
        self.tally.bytes(&old, bytes.0, || "an old image that was compared".into());
        self.tally.bytes(&new, bytes.1, || "a new image that was compared".into());
        self.calls += 2;
        self.pairs += 1;
    }

    // Any two images, sheet and ids: a place lies in the round, the counts of a yes add up, and all that a question does not name is 0.
    fn report(&mut self, random: &mut Random, bytes: (&[u8], &[u8])) {
        let (old, new) = (exact(bytes.0), exact(bytes.1));
        let ids = |random: &mut Random, most: usize| -> Box<[u32]> {
            (0..random.below(most)).map(|_| if random.once_in(20) { random.word() } else { random.below(12) as u32 }).collect()
        };
        let listed: Vec<u32> = (0..12).filter(|_| !random.once_in(6)).collect();
        let mut file = vec![0; 6 + 4 * listed.len()];
        archive::sheet_write(&mut file, [&listed[..listed.len() / 3], &listed[listed.len() / 3..], &[]]);
        if random.once_in(6) {
            file.truncate(random.below(file.len()));
        }
        let (sheet, round, accepted) = (exact(&file), ids(random, 9), ids(random, 5));
        let before = (sheet.clone(), round.clone(), accepted.clone());
        let answers = [archive::preflight(&old, &new, &sheet, &round, &accepted), archive::preflight_first(&new, &sheet, &round)];
        for (answer, most) in answers.iter().zip([10, 6]) {
            let n = round.len() as u64;
            let places = match answer.question {
                6 => answer.place < n && answer.other < n,
                3 | 5 | 9 | 10 => answer.place < n && answer.other == 0,
                _ => (answer.place, answer.other) == (0, 0),
            };
            let counted = answer.compared + answer.added == if answer.question == 0 && most == 10 { n } else { 0 };
            let rest = (answer.refusal > 0) == (answer.question == 2) && (answer.id == 0 || answer.question == 10);
            let so = answer.question <= most && places && counted && rest && answer.unsighted <= 12;
            self.tally.rule(so, true, || format!("{answer:?} of {round:?}"));
        }
        self.tally.rule((sheet, round, accepted) == before, true, || "what a report rests on".into());
        self.tally.bytes(&old, bytes.0, || "the old image of a report".into());
        self.tally.bytes(&new, bytes.1, || "the new image of a report".into());
        self.calls += 2;
        self.reports += 1;
    }

    fn unchanged(&mut self, (record, counts, buf): (archive::Record, &Counts, &[u8]), s: &State, what: &str) {
        self.refused += 1;
        self.tally.rule(record, s.record, || format!("the record after {what}"));
        self.tally.rule(*counts == s.counts, true, || format!("the counts after {what}"));
        self.tally.bytes(buf, &s.buf, || format!("the bytes after {what}"));
    }

    // A begin that is refused, for its buffer, its mode or its repeats; or a state with some puts.
    fn begin(&mut self, random: &mut Random) -> Option<State> {
        let length = random.pick(&[0, 1, 2071, 2072, 2073, 2300, 2300, 2600, 2600, 3000]);
        let mode = random.pick(&[0, 0, 0, 0, 1, 1, 1, 2]);
        let buf = exact(&random.bytes(length));
        let mut counts: Box<Counts> = Box::new([random.word(); 256]);
        let before = counts.clone();
        let repeats = random.pick(&[0, 0, 0, 0, 1, 1, 1, 2]);
        let (a, b, c, d) = (random.word(), random.word(), random.word(), random.word());
        let old = Record { mode: a, repeats: b, entries: c, back: d, length: random.next(), end: random.next() };
        let mut record = Box::new(old);
        let refusal = archive::begin_in(mode, repeats, &mut record, &mut counts, &buf);
        self.calls += 1;
        if refusal > 0 {
            self.refused += 1;
            self.tally.rule((*record, counts), (old, before), || "the writer after a refused begin".into());
            return None;
        }
        let mut s = State { record: *record, counts: *counts, buf: buf.into_vec() };
        for i in 0..random.below(12) as u32 {
            let name = names::any(random);
            s.record = archive::put(s.record, &mut s.counts, &mut s.buf, &name, i + random.below(3) as u32).record;
            self.calls += 1;
        }
        Some(s)
    }
}

// One state that calls left: its image is read in damaged copies, and copies of it, most of them spoilt, are written to.
fn round(run: &mut Run, random: &mut Random) {
    let Some(state) = run.begin(random) else { return };
    let names: Vec<Box<[u8]>> = match writing::entries(&state) {
        Some(puts) => puts.iter().take(6).map(|put| exact(&put.0)).chain([exact(&names::any(random)), exact(b"")]).collect(),
        None => vec![exact(b"")],
    };
    let mut closed = state.clone();
    let size = archive::close(closed.record, &closed.counts, &mut closed.buf).size as usize;
    let mut images = vec![closed.buf[..size].to_vec(); 8];
    for kind in 0..damage::KINDS {
        let copy = damage::copy(random, &closed.buf[..size], kind);
        run.image(random, &copy, &names);
        images.push(copy);
    }
    for _ in 0..20 {
        run.bundle(random, &images);
        let image = &images[random.below(images.len())];
        run.season(random, image);
        let other = &images[random.below(images.len())];
        run.changes(random, (image, other));
        run.report(random, (image, other));
        run.list(random);
    }
    let n = random.below(4000);
    let noise = random.bytes(n);
    run.image(random, &noise, &names);
    for _ in 0..60 {
        let mut odd = if random.once_in(2) { state.clone() } else { closed.clone() };
        for _ in 0..random.below(4) {
            spoil::state(random, &mut odd);
        }
        run.write(random, &odd, &names);
        run.grow(random, &odd);
        run.indexed(random, &odd, &names);
    }
    for _ in 0..60 {
        run.order(random);
        run.sheet(random);
        run.load(random);
    }
}

// Lends one byte more than the heap block has. valgrind has to report it, which shows that it watches the archive.
fn lend_too_much() {
    let name = exact(&[7; 40]);
    // SAFETY: none: this breaks what is owed, on purpose. It runs under valgrind alone, which reports the byte.
    let more = unsafe { std::slice::from_raw_parts(name.as_ptr(), 41) };
    println!("hostile: the hash of one byte too much is {:x}", archive::hash(more, 0).hash);
}

fn main() {
    if std::env::args().nth(1).as_deref() == Some("too-much") {
        return lend_too_much();
    }
    let calls = std::env::args().nth(1).map_or(CALLS, |text| text.parse().expect("a number of calls"));
    let mut random = Random::new();
    println!("hostile: seed {}", random.seed);
    let mut run = Run { tally: Tally::default(), calls: 0, refused: 0, images: 0, states: 0, rounds: 0, sheets: 0, bundles: 0, loads: 0, seasons: 0, pairs: 0, reports: 0, lists: 0, slots: 0, repeated: 0 };
    while run.calls < calls {
        round(&mut run, &mut random);
    }
    println!(
        "hostile: {} calls on {} images, {} records with their buffers, {} rounds, {} sheets, {} bundles, {} loads, {} lists of windows, {} pairs of images, {} reports, {} whole lists and {} lists of slots; {} refused, {} of them repeats; {} of {} checks failed",
        run.calls, run.images, run.states, run.rounds, run.sheets, run.bundles, run.loads, run.seasons, run.pairs, run.reports, run.lists, run.slots, run.refused, run.repeated, run.tally.different, run.tally.rule
    );
    std::process::exit(i32::from(run.tally.different > 0));
}
