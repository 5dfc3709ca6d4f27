//! The structs of the C header, field by field in the header's order. A test compares names, places and sizes with what a
//! C compiler makes of the header.

use crate::header::{MOST_LINKS, NEIGHBOURS, NETWORK_ID_BYTES, TIMINGS};
use std::mem::{offset_of, size_of};

/// A field of a struct: its name, and its place and size in bytes.
pub type Field = (&'static str, usize, usize);

/// One number of a struct, to be changed.
pub enum Number<'a> {
    Flag(&'a mut bool),
    U8(&'a mut u8),
    U16(&'a mut u16),
    U32(&'a mut u32),
    U64(&'a mut u64),
    I32(&'a mut i32),
    Size(&'a mut usize),
}

/// What is made of numbers: a number, an array or a struct. Padding is no part of it.
pub trait Numbers: Copy {
    /// Visits the numbers in the order of their places.
    fn visit(&mut self, visit: &mut dyn FnMut(Number));

    /// Whether two are the same bit for bit. Of a flag all eight bits are compared: from C it may have any.
    fn same(&self, other: &Self) -> bool;

    /// The numbers; a flag is 0 or 1, a negative one has all bits over its own set.
    fn numbers(mut self) -> Vec<u64> {
        let mut numbers = Vec::new();
        self.visit(&mut |number| {
            numbers.push(match number {
                Number::Flag(flag) => u64::from(*flag),
                Number::U8(number) => u64::from(*number),
                Number::U16(number) => u64::from(*number),
                Number::U32(number) => u64::from(*number),
                Number::U64(number) => *number,
                Number::I32(number) => *number as u64,
                Number::Size(number) => *number as u64,
            });
        });
        numbers
    }
}

macro_rules! whole_numbers {
    ($($type:ty: $case:ident,)*) => {
        $(impl Numbers for $type {
            fn visit(&mut self, visit: &mut dyn FnMut(Number)) {
                visit(Number::$case(self));
            }

            fn same(&self, other: &Self) -> bool {
                self == other
            }
        })*
    };
}

whole_numbers! {
    u8: U8,
    u16: U16,
    u32: U32,
    u64: U64,
    i32: I32,
    usize: Size,
}

impl Numbers for bool {
    fn visit(&mut self, visit: &mut dyn FnMut(Number)) {
        visit(Number::Flag(self));
    }

    fn same(&self, other: &Self) -> bool {
        let byte = |flag: &bool| {
            let place: *const bool = flag;
            // SAFETY: a flag is one byte that can be read. Volatile, so that the compiler does not take it for 0 or 1.
            unsafe { place.cast::<u8>().read_volatile() }
        };
        byte(self) == byte(other)
    }
}

impl<T: Numbers, const N: usize> Numbers for [T; N] {
    fn visit(&mut self, visit: &mut dyn FnMut(Number)) {
        self.iter_mut().for_each(|entry| entry.visit(visit));
    }

    fn same(&self, other: &Self) -> bool {
        self.iter().zip(other).all(|(one, other)| one.same(other))
    }
}

/// Declares the structs; `STRUCTS` lists them with their names in C, sizes and fields.
macro_rules! structs {
    ($($(#[$comment:meta])* pub struct $name:ident ($c_name:literal) {
        $(pub $field:ident: $type:ty,)*
    })*) => {
        $($(#[$comment])*
        #[derive(Clone, Copy, Debug, Default, PartialEq, Eq)]
        #[repr(C)]
        pub struct $name {
            $(pub $field: $type,)*
        }

        impl Numbers for $name {
            fn visit(&mut self, visit: &mut dyn FnMut(Number)) {
                $(self.$field.visit(visit);)*
            }

            fn same(&self, other: &Self) -> bool {
                $(self.$field.same(&other.$field))&&*
            }
        })*

        pub const STRUCTS: &[(&str, usize, &[Field])] = &[
            $(($c_name, size_of::<$name>(), &[
                $((stringify!($field), offset_of!($name, $field), size_of::<$type>()),)*
            ]),)*
        ];
    };
}

structs! {
    /// A link. On air its options are one byte.
    pub struct Link ("link") {
        pub timeslot: u16,
        pub channel_offset: u16,
        pub options: u16,
    }

    pub struct Synchronization ("synchronization") {
        pub asn: u64,
        pub join_metric: u8,
    }

    pub struct Timeslot ("timeslot") {
        pub template_id: u8,
        pub has_timings: bool,
        pub timings: [u32; TIMINGS],
    }

    pub struct Slotframe ("slotframe") {
        pub handle: u8,
        pub size: u16,
        pub link_count: u16,
        pub links: [Link; MOST_LINKS],
    }

    pub struct Joining ("joining") {
        pub present: bool,
        pub router: bool,
        pub proxied: bool,
        pub proxy_priority: u8,
        pub rank_priority: u16,
        pub pan_priority: u8,
        pub proxy_address: u64,
        pub network_id_length: u8,
        pub network_id: [u8; NETWORK_ID_BYTES],
    }

    /// A beacon's record. The default is the blank record, all 0.
    pub struct Beacon ("beacon") {
        pub has_sequence_number: bool,
        pub sequence_number: u8,
        pub pan_id: u16,
        pub source_is_extended: bool,
        pub source: u64,
        pub synchronization: Synchronization,
        pub timeslot: Timeslot,
        pub hopping_sequence_id: u8,
        pub slotframe: Slotframe,
        pub joining: Joining,
    }

    pub struct Reading ("reading") {
        pub number: u8,
        pub beacon: Beacon,
    }

    pub struct Written ("written") {
        pub number: u8,
        pub length: usize,
    }

    pub struct Span ("span") {
        pub offset: usize,
        pub length: usize,
    }

    /// The content of a record's field. The default is that of an absent one, all 0.
    pub struct Content ("content") {
        pub kind: u32,
        pub length: u32,
        pub number: u64,
        pub octets: [u8; NETWORK_ID_BYTES],
    }

    /// An acknowledgement's record. The default is the blank record, all 0.
    pub struct Ack ("ack") {
        pub has_sequence_number: bool,
        pub sequence_number: u8,
        pub pan_id: u16,
        pub destination_is_extended: bool,
        pub destination: u64,
        pub source_is_extended: bool,
        pub source: u64,
        pub correction: i32,
        pub not_acknowledged: bool,
    }

    pub struct AckReading ("ack_reading") {
        pub number: u8,
        pub ack: Ack,
    }

    pub struct Neighbour ("neighbour") {
        pub id: u64,
        pub rank: u16,
        pub attempts: u16,
        pub acknowledged: u16,
        pub in_use: bool,
    }

    /// A neighbour table. The default is the empty one, all 0.
    pub struct Table ("table") {
        pub has_parent: bool,
        pub parent: u64,
        pub neighbours: [Neighbour; NEIGHBOURS],
    }

    pub struct TableAnswer ("table_answer") {
        pub number: u8,
        pub table: Table,
    }

    pub struct Evaluation ("evaluation") {
        pub number: u8,
        pub changed: bool,
        pub rank: u16,
        pub has_parent: bool,
        pub parent: u64,
        pub table: Table,
    }

    pub struct Replay ("replay") {
        pub number: u8,
        pub applies: bool,
        pub evaluations: u32,
        pub changes: u32,
        pub rises: u64,
        pub first_cost: u32,
        pub last_cost: u32,
        pub table: Table,
    }

    pub struct Slot ("slot") {
        pub number: u8,
        pub action: u8,
        pub channel: u8,
        pub index: u8,
    }

    pub struct Metric ("metric") {
        pub number: u8,
        pub metric: u8,
    }
}
