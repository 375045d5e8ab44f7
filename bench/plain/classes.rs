//! Classes: what their names mean, the chains of their super classes, and the layouts of their instances.

use crate::class_dump::{Class, Field};
use crate::ids::{Ids, first_of_each};
use crate::records::{Load, Name, Records, Text};
use crate::values::{is_id_type, value_len};

/// What instances of a class look like, as far as the whole chain of its super classes is there.
#[derive(Default)]
pub struct Layout {
    pub is_whole: bool,
    /// The bytes of an instance's values.
    pub bytes: u32,
    /// Where its values lie that are IDs, from the first value on, but for the referent.
    pub references: Vec<u32>,
    /// Where the referent lies, and the rank that it gives.
    pub referent: Option<(u32, u8)>,
}

/// The layouts of classes, by the numbers of the classes' IDs.
pub struct Layouts {
    pub ids: Ids,
    pub layouts: Vec<Layout>,
}

impl Layouts {
    /// The number of a class, where its layout is known.
    #[inline]
    pub fn number(&self, class: u64) -> Option<u32> {
        let number = self.ids.get(class)?;
        self.layouts[number as usize].is_whole.then_some(number)
    }
}

/// How many object sub-records, texts and loads have the ID of an earlier one.
#[derive(Default)]
pub struct Repeats {
    pub objects: u64,
    pub texts: u64,
    pub loads: u64,
}

/// The texts and the names of classes, by IDs.
struct Names<'a> {
    text_ids: Ids,
    texts: Vec<&'a Text>,
    load_ids: Ids,
    loads: Vec<&'a Load>,
}

impl<'a> Names<'a> {
    fn new(records: &'a Records) -> Names<'a> {
        let (text_ids, texts) = first_of_each(records.texts.iter(), |text| text.id);
        let (load_ids, loads) = first_of_each(records.loads.iter(), |load| load.class);
        Names {
            text_ids,
            texts,
            load_ids,
            loads,
        }
    }

    /// What the text with an ID is.
    fn text(&self, id: u64) -> Name {
        let number = self.text_ids.get(id);
        number.map_or(Name::Other, |i| self.texts[i as usize].name)
    }

    /// What the name of a class is.
    fn class(&self, class: u64) -> Name {
        let number = self.load_ids.get(class);
        number.map_or(Name::Other, |i| self.text(self.loads[i as usize].name))
    }

    /// The rank that the referents of a class's instances get, if the class is one of the four that give one.
    fn rank_given(&self, class: u64) -> Option<u8> {
        match self.class(class) {
            Name::Giver(rank) => Some(rank),
            _ => None,
        }
    }

    /// Where the referent stands among the fields of a class, if the class is the one that declares it.
    fn referent_field(&self, class: &Class) -> Option<usize> {
        if self.class(class.id) != Name::Reference {
            return None;
        }
        let is_referent =
            |field: &Field| is_id_type(field.code) && self.text(field.name) == Name::Referent;
        class.fields.iter().position(is_referent)
    }
}

/// The class and those above it, where none of these is missing.
fn chain<'a>(ids: &Ids, classes: &[&'a Class], class: &'a Class) -> Option<Vec<&'a Class>> {
    let mut chain = vec![class];
    let mut above = class.super_id;
    while above != 0 {
        let class = classes[ids.get(above)? as usize];
        if chain.len() > classes.len() {
            return None;
        }
        chain.push(class);
        above = class.super_id;
    }
    Some(chain)
}

/// The layout of a class whose chain is whole.
fn layout(names: &Names, id_len: usize, chain: &[&Class]) -> Layout {
    let rank = chain.iter().find_map(|class| names.rank_given(class.id));
    let mut layout = Layout {
        is_whole: true,
        ..Layout::default()
    };
    for class in chain {
        let referent = rank.and_then(|_| names.referent_field(class));
        for (i, field) in class.fields.iter().enumerate() {
            if layout.referent.is_none() && referent == Some(i) {
                layout.referent = rank.map(|rank| (layout.bytes, rank));
            } else if is_id_type(field.code) {
                layout.references.push(layout.bytes);
            }
            layout.bytes += value_len(field.code, id_len) as u32;
        }
    }
    layout
}

/// The layouts of the classes, the first of each ID, and how many texts and loads are repeated.
pub fn read_layouts(id_len: usize, records: &Records, classes: &[Class]) -> (Layouts, Repeats) {
    let names = Names::new(records);
    let (ids, classes) = first_of_each(classes.iter(), |class| class.id);
    let layout = |class: &&Class| {
        let chain = chain(&ids, &classes, class);
        chain.map_or_else(Layout::default, |chain| layout(&names, id_len, &chain))
    };
    let layouts = classes.iter().map(layout).collect();
    let repeats = Repeats {
        objects: 0,
        texts: (records.texts.len() - names.texts.len()) as u64,
        loads: (records.loads.len() - names.loads.len()) as u64,
    };
    (Layouts { ids, layouts }, repeats)
}
