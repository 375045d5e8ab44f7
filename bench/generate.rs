//! Writes a synthetic heap dump of object arrays, or of instances too, for measuring.
//!
//! Build:  rustc --edition 2021 -O bench/generate.rs -o generate
//! Run:    ./generate PATH BYTES ID_SIZE SEED [absent|present|instances]
//!
//! The file is in the HPROF binary format, format name JAVA PROFILE 1.0.2: a header, HEAP DUMP SEGMENT records with
//! bodies of at most 1 MiB, and a HEAP DUMP END. The only sub-records are ROOT UNKNOWN and OBJECT ARRAY DUMP, and with
//! `instances` CLASS DUMP and INSTANCE DUMP. The same words always give the same bytes. The file is never larger than
//! BYTES, and less than 1 MiB smaller.
//!
//! Standard output gets the ID of the first object, which is reachable; standard error gets the counts.
//!
//! The shape, by an object's number i in file order:
//!
//! - IDs rise from a base by 16 with 8-byte identifiers and by 8 with 4-byte ones.
//! - An object has about 2.5 elements, and its class is one more slot. With 8-byte identifiers that is about 45 bytes
//!   of dump an object, much as in real dumps. With 4-byte identifiers such objects take about 27 bytes each, so a file
//!   of the same size has more of them.
//! - Every fourth object is a node of a linked list: its first element is the next node. A list ends after two million
//!   nodes. A root is on object 0, which holds the first nodes of all lists.
//! - Of the other objects one in 65,536 has 1,024 to 16,383 elements, and one in about a million has 100,000.
//! - Of all other elements a tenth is null, one in 256 is the ID of no object, two thirds are objects at most 64
//!   numbers away, and the rest are objects anywhere.
//! - Every eighth object is held by its like alone, so nothing reaches it. Roots reach about two thirds of all.
//! - Before every thousandth object stands a root on it, and after every hundredth such root one on an absent ID.
//! - Array classes are 64 IDs that no object has. With `present` they are the objects 1 to 64 instead.
//! - With `instances` they are class objects, which stand before all others. So are the classes of instances: one for
//!   each number of references, up to 24, with an int and that number of references as fields. All these have one super class,
//!   which has no fields. Every node of a list is an instance then, and so are three quarters of the other objects with
//!   up to 24 elements; their elements are those fields. No class has a name, so all references are strong.

use std::env;
use std::fs::File;
use std::io::{self, BufWriter, Write};
use std::process::ExitCode;

const HEADER_LEN: u64 = 31;
const RECORD_HEAD_LEN: u64 = 9;
const HEAP_DUMP_SEGMENT: u8 = 0x1c;
const HEAP_DUMP_END: u8 = 0x2c;
const ROOT_UNKNOWN: u8 = 0xff;
const CLASS_DUMP: u8 = 0x20;
const INSTANCE_DUMP: u8 = 0x21;
const OBJECT_ARRAY_DUMP: u8 = 0x22;

/// Types of fields, and the bytes of an int.
const REFERENCE: u8 = 2;
const INT: u8 = 10;
const INT_LEN: u64 = 4;

/// The most bytes of a segment's body. The longest array, of 100,000 elements, fits.
const BODY_LIMIT: u64 = 1 << 20;

/// How many lists object 0 can hold the first node of; enough for 512 million objects.
const LISTS: u64 = 64;
const LIST_NODES: u64 = 2_000_000;

const OBJECTS_PER_ROOT: u64 = 1_000;
const ROOTS_PER_ABSENT_ROOT: u64 = 100;
const CLASSES: u64 = 64;

/// The most references of an instance.
const FIELDS: u64 = 24;

/// The number of the super class of all classes, behind those of arrays and those of instances.
const TOP_CLASS: u64 = CLASSES + FIELDS + 1;

/// The most bytes of a file that can be opened.
const LARGEST_FILE: u64 = 2_147_483_647;
const SMALLEST_FILE: u64 = 2_000;

/// The same where there are instances, and so classes.
const SMALLEST_WITH_CLASSES: u64 = 20_000;

/// What the IDs of classes are.
#[derive(Clone, Copy, PartialEq)]
enum Classes {
    Absent,
    Arrays,
    ClassObjects,
}

/// What the words ask for.
struct Order {
    path: String,
    bytes: u64,
    id_size: u64,
    seed: u64,
    classes: Classes,
}

/// What was written.
#[derive(Default)]
struct Counts {
    bytes: u64,
    segments: u64,
    objects: u64,
    elements: u64,
    roots: u64,
}

/// A number without pattern, the same for the same arguments.
fn scatter(seed: u64, a: u64, b: u64) -> u64 {
    let mut x =
        seed ^ a.wrapping_mul(0x9e37_79b9_7f4a_7c15) ^ b.wrapping_mul(0xd6e8_feb8_6659_fd93);
    x = (x ^ (x >> 30)).wrapping_mul(0xbf58_476d_1ce4_e5b9);
    x = (x ^ (x >> 27)).wrapping_mul(0x94d0_49bb_1331_11eb);
    x ^ (x >> 31)
}

fn is_list_node(i: u64) -> bool {
    i % 4 == 2
}

/// Whether only its like refer to this object.
fn is_garbage(i: u64) -> bool {
    i % 8 == 7
}

fn has_root(i: u64) -> bool {
    i % OBJECTS_PER_ROOT == 0
}

fn has_absent_root(i: u64) -> bool {
    i % (OBJECTS_PER_ROOT * ROOTS_PER_ABSENT_ROOT) == 0
}

/// How many of 128 objects of the usual kind have a number of elements: the number, and how many have it.
const USUAL: [(u8, usize); 13] = [
    (0, 26),
    (1, 34),
    (2, 26),
    (3, 17),
    (4, 11),
    (5, 3),
    (6, 3),
    (7, 2),
    (8, 2),
    (10, 1),
    (14, 1),
    (19, 1),
    (24, 1),
];

/// The same as a list of 128 lengths.
const LENGTHS: [u8; 128] = {
    let (mut lengths, mut at, mut row) = ([0; 128], 0, 0);
    while row < USUAL.len() {
        let mut times = 0;
        while times < USUAL[row].1 {
            lengths[at] = USUAL[row].0;
            at += 1;
            times += 1;
        }
        row += 1;
    }
    lengths
};

/// How many elements an object has.
fn elements_of(seed: u64, i: u64) -> u64 {
    if i == 0 {
        return LISTS;
    }
    if is_list_node(i) {
        return 2;
    }
    let x = scatter(seed, i, u64::MAX);
    match x & 0xffff {
        0 => 1_024 + (x >> 32) % 15_360,
        1 if x & 0xf_ffff == 1 => 100_000,
        _ => u64::from(LENGTHS[(x >> 57) as usize]),
    }
}

/// Whether an object with `elements` elements is an instance, where there are instances.
fn can_be_instance(seed: u64, i: u64, elements: u64) -> bool {
    let is_chosen = is_list_node(i) || scatter(seed, i, u64::MAX - 1) & 3 > 0;
    i > 0 && elements <= FIELDS && is_chosen
}

/// How many of an object's elements, from the first on, hold nodes of lists.
fn linked_elements_of(i: u64) -> u64 {
    if i == 0 {
        LISTS
    } else {
        u64::from(is_list_node(i))
    }
}

/// The number of an object's class.
fn class_of(i: u64) -> u64 {
    (i.wrapping_mul(0x9e37_79b9_7f4a_7c15) >> 32) % CLASSES
}

/// The dump's IDs.
struct Ids {
    base: u64,
    step: u64,
    size: u64,
    classes: Classes,
}

impl Ids {
    fn new(order: &Order) -> Ids {
        let (base, step) = if order.id_size == 8 {
            (0x7_0000_0000, 16)
        } else {
            (0x1000_0000, 8)
        };
        Ids {
            base,
            step,
            size: order.id_size,
            classes: order.classes,
        }
    }

    fn of_object(&self, i: u64) -> u64 {
        self.base + self.step * i
    }

    /// An ID between those of two objects.
    fn absent(&self, i: u64) -> u64 {
        self.of_object(i) + self.step / 2
    }

    fn of_class(&self, class: u64) -> u64 {
        if self.classes == Classes::Arrays {
            self.of_object(class + 1)
        } else {
            self.base - self.step * (class + 1)
        }
    }

    fn put(&self, body: &mut Vec<u8>, id: u64) {
        if self.size == 8 {
            body.extend_from_slice(&id.to_be_bytes());
        } else {
            body.extend_from_slice(&(id as u32).to_be_bytes());
        }
    }

    fn root_len(&self) -> u64 {
        1 + self.size
    }

    fn array_len(&self, elements: u64) -> u64 {
        9 + 2 * self.size + elements * self.size
    }

    /// Whether an object with `elements` elements is an instance.
    fn is_instance(&self, seed: u64, i: u64, elements: u64) -> bool {
        self.classes == Classes::ClassObjects && can_be_instance(seed, i, elements)
    }

    /// The bytes of an object's sub-record and of the roots before it. An instance has as many as an array and its int.
    fn subs_len(&self, seed: u64, i: u64) -> u64 {
        let roots = u64::from(has_root(i)) + u64::from(has_absent_root(i));
        let elements = elements_of(seed, i);
        let int = u64::from(self.is_instance(seed, i, elements)) * INT_LEN;
        roots * self.root_len() + self.array_len(elements) + int
    }
}

/// How many objects fit that aren't classes. It takes the same steps as `write_dump`, without the bytes.
fn count_objects(order: &Order, ids: &Ids) -> u64 {
    let mut classes = Vec::new();
    put_classes(ids, &mut classes);
    let (mut before, mut body, mut i) = (HEADER_LEN, classes.len() as u64, 0);
    loop {
        let len = ids.subs_len(order.seed, i);
        if body > 0 && body + len > BODY_LIMIT {
            before += RECORD_HEAD_LEN + body;
            body = 0;
        }
        if before + RECORD_HEAD_LEN + body + len + RECORD_HEAD_LEN > order.bytes {
            return i;
        }
        body += len;
        i += 1;
    }
}

/// An object at most 64 numbers away.
fn near(i: u64, x: u64, objects: u64) -> u64 {
    (i + x % 129).saturating_sub(64).min(objects - 1)
}

/// The ID in an element that holds the next or first node of a list, 0 at a list's end.
fn linked_id(ids: &Ids, objects: u64, i: u64, element: u64) -> u64 {
    let node = if i == 0 {
        2 + 4 * LIST_NODES * element
    } else {
        i + 4
    };
    let is_end = i > 0 && (i / 4 + 1) % LIST_NODES == 0;
    if is_end || node >= objects {
        0
    } else {
        ids.of_object(node)
    }
}

/// The ID in any other element.
fn scattered_id(seed: u64, ids: &Ids, objects: u64, i: u64, element: u64) -> u64 {
    let x = scatter(seed, i, element);
    let chance = x & 0xff;
    if chance < 27 {
        return if chance < 26 {
            0
        } else {
            ids.absent(near(i, x >> 8, objects))
        };
    }
    // (a part of 2^32, which is faster than a remainder)
    let target = if chance < 198 {
        near(i, x >> 8, objects)
    } else {
        ((x >> 32) * objects) >> 32
    };
    ids.of_object(target - u64::from(is_garbage(target) && !is_garbage(i)))
}

fn put_root(ids: &Ids, body: &mut Vec<u8>, id: u64) {
    body.push(ROOT_UNKNOWN);
    ids.put(body, id);
}

/// Puts a class. Those of instances have an int and references as fields.
fn put_class(ids: &Ids, body: &mut Vec<u8>, class: u64) {
    let fields = if (CLASSES..TOP_CLASS).contains(&class) {
        class - CLASSES + 1
    } else {
        0
    };
    body.push(CLASS_DUMP);
    ids.put(body, ids.of_class(class));
    body.extend_from_slice(&0u32.to_be_bytes());
    let is_top = class == TOP_CLASS;
    ids.put(body, if is_top { 0 } else { ids.of_class(TOP_CLASS) });
    (0..5).for_each(|_| ids.put(body, 0));
    body.extend_from_slice(&0u32.to_be_bytes());
    // no constants, no statics
    body.extend_from_slice(&[0; 4]);
    body.extend_from_slice(&(fields as u16).to_be_bytes());
    for field in 0..fields {
        ids.put(body, 1 + field);
        body.push(if field == 0 { INT } else { REFERENCE });
    }
}

/// Puts the class objects, if there are any, and answers how many.
fn put_classes(ids: &Ids, body: &mut Vec<u8>) -> u64 {
    if ids.classes != Classes::ClassObjects {
        return 0;
    }
    (0..=TOP_CLASS).for_each(|class| put_class(ids, body, class));
    TOP_CLASS + 1
}

/// Puts what stands before the values of an instance: its int is the first of these.
fn put_instance_head(ids: &Ids, body: &mut Vec<u8>, i: u64, elements: u64) {
    body.push(INSTANCE_DUMP);
    ids.put(body, ids.of_object(i));
    body.extend_from_slice(&0u32.to_be_bytes());
    ids.put(body, ids.of_class(CLASSES + elements));
    let len = INT_LEN + elements * ids.size;
    body.extend_from_slice(&(len as u32).to_be_bytes());
    body.extend_from_slice(&(i as u32).to_be_bytes());
}

fn put_array_head(ids: &Ids, body: &mut Vec<u8>, i: u64, elements: u64) {
    body.push(OBJECT_ARRAY_DUMP);
    ids.put(body, ids.of_object(i));
    body.extend_from_slice(&0u32.to_be_bytes());
    body.extend_from_slice(&(elements as u32).to_be_bytes());
    ids.put(body, ids.of_class(class_of(i)));
}

fn put_object(order: &Order, ids: &Ids, objects: u64, body: &mut Vec<u8>, i: u64, elements: u64) {
    if ids.is_instance(order.seed, i, elements) {
        put_instance_head(ids, body, i, elements);
    } else {
        put_array_head(ids, body, i, elements);
    }
    let linked = linked_elements_of(i);
    for element in 0..linked {
        ids.put(body, linked_id(ids, objects, i, element));
    }
    for element in linked..elements {
        ids.put(body, scattered_id(order.seed, ids, objects, i, element));
    }
}

fn put_record(file: &mut impl Write, counts: &mut Counts, tag: u8, body: &[u8]) -> io::Result<()> {
    file.write_all(&[tag, 0, 0, 0, 0])?;
    file.write_all(&(body.len() as u32).to_be_bytes())?;
    file.write_all(body)?;
    counts.bytes += RECORD_HEAD_LEN + body.len() as u64;
    Ok(())
}

fn write_dump(order: &Order, ids: &Ids, objects: u64, file: &mut impl Write) -> io::Result<Counts> {
    let mut counts = Counts {
        bytes: HEADER_LEN,
        objects,
        ..Counts::default()
    };
    file.write_all(b"JAVA PROFILE 1.0.2\0")?;
    file.write_all(&(order.id_size as u32).to_be_bytes())?;
    file.write_all(&[0; 8])?;
    let mut body = Vec::with_capacity(BODY_LIMIT as usize);
    counts.objects += put_classes(ids, &mut body);
    for i in 0..objects {
        if !body.is_empty() && body.len() as u64 + ids.subs_len(order.seed, i) > BODY_LIMIT {
            put_record(file, &mut counts, HEAP_DUMP_SEGMENT, &body)?;
            counts.segments += 1;
            body.clear();
        }
        if has_root(i) {
            put_root(ids, &mut body, ids.of_object(i));
            counts.roots += 1;
        }
        if has_absent_root(i) {
            put_root(ids, &mut body, ids.absent(i));
            counts.roots += 1;
        }
        let elements = elements_of(order.seed, i);
        put_object(order, ids, objects, &mut body, i, elements);
        counts.elements += elements;
    }
    put_record(file, &mut counts, HEAP_DUMP_SEGMENT, &body)?;
    counts.segments += 1;
    put_record(file, &mut counts, HEAP_DUMP_END, &[])?;
    file.flush()?;
    Ok(counts)
}

fn read_order(words: &[String]) -> Option<Order> {
    let classes = match words.get(4).map(String::as_str) {
        None | Some("absent") => Classes::Absent,
        Some("present") => Classes::Arrays,
        Some("instances") => Classes::ClassObjects,
        Some(_) => return None,
    };
    let order = Order {
        path: words.first()?.clone(),
        bytes: words.get(1)?.parse().ok()?,
        id_size: words.get(2)?.parse().ok()?,
        seed: words.get(3)?.parse().ok()?,
        classes,
    };
    let smallest = if classes == Classes::ClassObjects {
        SMALLEST_WITH_CLASSES
    } else {
        SMALLEST_FILE
    };
    let is_right = words.len() <= 5
        && (smallest..=LARGEST_FILE).contains(&order.bytes)
        && (order.id_size == 4 || order.id_size == 8);
    is_right.then_some(order)
}

fn generate(order: &Order) -> io::Result<()> {
    let ids = Ids::new(order);
    let objects = count_objects(order, &ids);
    let mut file = BufWriter::with_capacity(1 << 20, File::create(&order.path)?);
    let counts = write_dump(order, &ids, objects, &mut file)?;
    println!("{:#x}", ids.of_object(0));
    eprintln!(
        "bytes {} segments {} objects {} elements {} roots {}",
        counts.bytes, counts.segments, counts.objects, counts.elements, counts.roots
    );
    Ok(())
}

fn main() -> ExitCode {
    let words: Vec<String> = env::args().skip(1).collect();
    let Some(order) = read_order(&words) else {
        eprintln!("usage: generate PATH BYTES ID_SIZE SEED [absent|present|instances]");
        eprintln!("BYTES is {SMALLEST_FILE} to {LARGEST_FILE}, with instances at least {SMALLEST_WITH_CLASSES}");
        eprintln!("ID_SIZE is 4 or 8");
        return ExitCode::from(64);
    };
    match generate(&order) {
        Ok(()) => ExitCode::SUCCESS,
        Err(error) => {
            eprintln!("generate: {}: {error}", order.path);
            ExitCode::FAILURE
        }
    }
}
