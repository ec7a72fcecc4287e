//! Paper 002's enumerations, in its order, as far as the 77 rows use them.

/// A value that 002 reserves: it has no name.
const RESERVED: &str = "";

/// The names of an enumeration's values, from 0 on.
#[derive(Clone, Copy, Debug)]
pub struct Enumeration {
    names: &'static [&'static str],
    /// The value that 002 marks as the default.
    default: Option<u8>,
}

/// How a value is written.
#[derive(Clone, Copy, Debug, PartialEq, Eq)]
pub(crate) enum Written {
    /// The default isn't.
    Nothing,
    Name(&'static str),
    /// Reserved, or past the end.
    Unknown,
}

impl Enumeration {
    const fn new(names: &'static [&'static str]) -> Enumeration {
        Enumeration { names, default: None }
    }

    const fn with_default(default: u8, names: &'static [&'static str]) -> Enumeration {
        Enumeration { names, default: Some(default) }
    }

    /// How any value is written.
    pub(crate) fn written(&self, value: u8) -> Written {
        if self.default == Some(value) {
            return Written::Nothing;
        }
        self.name(value).map_or(Written::Unknown, Written::Name)
    }

    /// The value's name, the default's too.
    pub(crate) fn name(&self, value: u8) -> Option<&'static str> {
        self.names.get(usize::from(value)).copied().filter(|name| *name != RESERVED)
    }
}

/// Of a place that a row doesn't use.
pub(crate) const NONE: Enumeration = Enumeration::new(&[]);

/// "Immediates": entries 0 to 31 on any page.
pub(crate) const IMMEDIATES: [u32; 32] = [
    0x0000_0000,
    0xFFFF_FFFF,
    0x7FFF_FFFF,
    0xFAFC_FDFE,
    0x0100_0000,
    0x8000_2000,
    0x7060_5030,
    0xC0B0_A090,
    0x0302_0100,
    0x0706_0504,
    0x0B0A_0908,
    0x0F0E_0D0C,
    0x1312_1110,
    0x1716_1514,
    0x1B1A_1918,
    0x1F1E_1D1C,
    0x3F80_0000,
    0x3DCC_CCCD,
    0x3EA2_F983,
    0x3F31_7218,
    0x4049_0FDB,
    0x0000_0000,
    0x477F_FF00,
    0x5C00_5BF8,
    0x2E66_0000,
    0x3400_0000,
    0x3800_0000,
    0x3C00_0000,
    0x4000_0000,
    0x4400_0000,
    0x4800_0000,
    0x4248_0000,
];

pub(crate) const FLOW: Enumeration = Enumeration::with_default(
    0,
    &[
        "none",
        "wait0",
        "wait1",
        "wait01",
        "wait2",
        "wait02",
        "wait12",
        "wait012",
        "wait0126",
        "wait",
        "reconverge",
        RESERVED,
        RESERVED,
        "discard",
        RESERVED,
        "end",
    ],
);

/// "FAU special page 0", 1 and 3; page 2 has none.
pub(crate) const SPECIALS: [Enumeration; 4] = [
    Enumeration::new(&[
        RESERVED,
        RESERVED,
        "warp_id",
        RESERVED,
        "framebuffer_size",
        "atest_datum",
        "sample",
        RESERVED,
        "blend_descriptor_0",
        "blend_descriptor_1",
        "blend_descriptor_2",
        "blend_descriptor_3",
        "blend_descriptor_4",
        "blend_descriptor_5",
        "blend_descriptor_6",
        "blend_descriptor_7",
    ]),
    Enumeration::new(&[
        RESERVED,
        "thread_local_pointer",
        RESERVED,
        "workgroup_local_pointer",
        RESERVED,
        RESERVED,
        RESERVED,
        "resource_table_pointer",
    ]),
    Enumeration::new(&[]),
    Enumeration::new(&[
        RESERVED,
        "lane_id",
        RESERVED,
        "core_id",
        RESERVED,
        RESERVED,
        RESERVED,
        RESERVED,
        RESERVED,
        RESERVED,
        RESERVED,
        RESERVED,
        RESERVED,
        RESERVED,
        RESERVED,
        "program_counter",
    ]),
];

pub(crate) const SWIZZLES_8: Enumeration = Enumeration::with_default(
    0,
    &[
        "b0123", "b3210", "b0101", "b2323", "b0000", "b1111", "b2222", "b3333", "b2301", "b1032", "b0011", "b2233",
        RESERVED, RESERVED, RESERVED, RESERVED,
    ],
);

pub(crate) const HALF_SWIZZLES_8: Enumeration = Enumeration::new(&[
    "b00", "b10", "b20", "b30", "b01", "b11", "b21", "b31", "b02", "b12", "b22", "b32", "b03", "b13", "b23", "b33",
]);

pub(crate) const SWIZZLES_16: Enumeration = Enumeration::with_default(
    2,
    &[
        "h00", "h10", "h01", "h11", "b00", "b20", "b02", "b22", "b11", "b31", "b13", "b33", "b01", "b23", RESERVED,
        RESERVED,
    ],
);

/// The first four of "Swizzles (16-bit)".
pub(crate) const HALVES_16: Enumeration = Enumeration { names: SWIZZLES_16.names.split_at(4).0, ..SWIZZLES_16 };

pub(crate) const SWIZZLES_32: Enumeration =
    Enumeration::with_default(0, &["none", RESERVED, "h0", "h1", "b0", "b1", "b2", "b3"]);

pub(crate) const LANE_8: Enumeration = Enumeration::new(&["b0", "b1", "b2", "b3"]);

pub(crate) const COMBINE: Enumeration = Enumeration::with_default(0, &["none", "h0", "h1", "and", "lowbits"]);

pub(crate) const LANE_16: Enumeration = Enumeration::new(&["h0", "h1"]);

pub(crate) const ROUND_MODE: Enumeration = Enumeration::with_default(0, &["rte", "rtp", "rtn", "rtz"]);

pub(crate) const RESULT_TYPE: Enumeration = Enumeration::new(&["i1", "f1", "m1", "u1"]);

pub(crate) const WIDEN: Enumeration =
    Enumeration::with_default(0, &["none", "h0", "h1", RESERVED, RESERVED, RESERVED, RESERVED, RESERVED]);

pub(crate) const CLAMP: Enumeration = Enumeration::with_default(0, &["none", "clamp_0_inf", "clamp_m1_1", "clamp_0_1"]);

pub(crate) const CONDITION: Enumeration = Enumeration::new(&["eq", "gt", "ge", "ne", "lt", "le", "gtlt", "total"]);

pub(crate) const MUX: Enumeration = Enumeration::with_default(1, &["neg", "int_zero", "fp_zero", "bit"]);

pub(crate) const NAN_MODE: Enumeration = Enumeration::new(&["none", "flush_nan", "quiet_nan"]);

/// Of one bit, which is 1 where the name is written: as an enumeration whose default is 0.
pub(crate) const NEG: Enumeration = Enumeration::with_default(0, &["none", "neg"]);
pub(crate) const ABS: Enumeration = Enumeration::with_default(0, &["none", "abs"]);
pub(crate) const FTZ: Enumeration = Enumeration::with_default(0, &["none", "ftz"]);
pub(crate) const FLUSH_INF: Enumeration = Enumeration::with_default(0, &["none", "flush_inf"]);
pub(crate) const CONSERVATIVE: Enumeration = Enumeration::with_default(0, &["none", "conservative"]);
pub(crate) const EQ: Enumeration = Enumeration::with_default(0, &["none", "eq"]);
pub(crate) const SATURATE: Enumeration = Enumeration::with_default(0, &["none", "saturate"]);
