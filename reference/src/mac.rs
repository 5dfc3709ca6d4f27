//! What beacons and acknowledgements have in common: the fields before the information elements and the list of header
//! elements, read and written, and the checks of both kinds of frames.

use crate::refusal::{ADDRESSING, CUT, FRAME_TOO_LONG, MISSING_OR_TWICE, OUT_OF_LIMITS, SECURED, SHAPE, WRONG_TYPE};

pub use crate::header::LONGEST_FRAME;

/// Frame types in the frame control field.
pub const BEACON: u16 = 0;
pub const ACKNOWLEDGEMENT: u16 = 2;

/// The frame version of IEEE 802.15.4-2015.
pub const VERSION: u16 = 2;

/// Address modes in the frame control field.
pub const SHORT: u16 = 2;
pub const EXTENDED: u16 = 3;

/// Element IDs of the header list.
pub const HEADER_TERMINATION_1: u16 = 0x7E;
pub const HEADER_TERMINATION_2: u16 = 0x7F;

pub const BIT_15: u16 = 1 << 15;

#[derive(Clone, Copy, Debug, PartialEq, Eq)]
pub enum Address {
    Short(u16),
    Extended(u64),
}

impl Address {
    /// Its mode in the frame control field.
    pub fn mode(self) -> u16 {
        match self {
            Address::Short(_) => SHORT,
            Address::Extended(_) => EXTENDED,
        }
    }

    /// How many bytes it has.
    pub fn length(self) -> usize {
        match self {
            Address::Short(_) => 2,
            Address::Extended(_) => 8,
        }
    }
}

/// Lists the checks, each with the number of its refusal: those of both kinds of frames, and those of one.
macro_rules! checks {
    (
        both { $($(#[$both_comment:meta])* $both:ident: $both_number:ident,)* }
        beacons { $($(#[$beacon_comment:meta])* $beacon:ident: $beacon_number:ident,)* }
        acks { $($(#[$ack_comment:meta])* $ack:ident: $ack_number:ident,)* }
    ) => {
        /// A check that a frame can fail.
        #[derive(Clone, Copy, Debug, PartialEq, Eq)]
        pub enum Check {
            $($(#[$both_comment])* $both,)*
            $($(#[$beacon_comment])* $beacon,)*
            $($(#[$ack_comment])* $ack,)*
        }

        impl Check {
            pub const OF_BEACONS: &[Check] = &[$(Check::$both,)* $(Check::$beacon,)*];
            pub const OF_ACKS: &[Check] = &[$(Check::$both,)* $(Check::$ack,)*];

            /// The refusal number.
            pub fn number(self) -> u8 {
                match self {
                    $(Check::$both => $both_number,)*
                    $(Check::$beacon => $beacon_number,)*
                    $(Check::$ack => $ack_number,)*
                }
            }
        }
    };
}

checks! {
    both {
        FrameTooLong: FRAME_TOO_LONG,
        /// No room for the frame control field.
        UnderTwoBytes: CUT,
        FrameType: WRONG_TYPE,
        FrameVersion: WRONG_TYPE,
        Security: SECURED,
        DestinationMode: ADDRESSING,
        SourceMode: ADDRESSING,
        /// Clear, or set between two extended addresses.
        PanIdCompression: ADDRESSING,
        ElementsPresent: ADDRESSING,
        /// The sequence number, the PAN ID or an address.
        FieldsCut: CUT,

        HeaderDescriptorCut: CUT,
        HeaderElementPastFrame: CUT,
        /// Set, as in a payload element.
        HeaderBit15: SHAPE,
        HeaderTermination1WithLength: SHAPE,
        HeaderTermination2WithLength: SHAPE,
    }
    beacons {
        /// The destination is not the broadcast address.
        Destination: ADDRESSING,

        PayloadDescriptorCut: CUT,
        GroupPastFrame: CUT,
        /// Clear, as in a header element.
        PayloadBit15: SHAPE,
        PayloadTerminationWithLength: SHAPE,
        /// No room for the subtype.
        IetfEmpty: SHAPE,

        SubElementDescriptorCut: CUT,
        SubElementPastGroup: CUT,
        SynchronizationLength: SHAPE,
        SynchronizationTwice: MISSING_OR_TWICE,
        TimeslotLength: SHAPE,
        TimeslotTwice: MISSING_OR_TWICE,
        /// A template ID alone, and not 0.
        TimeslotTemplate: OUT_OF_LIMITS,
        HoppingEmpty: SHAPE,
        HoppingTwice: MISSING_OR_TWICE,
        HoppingTooLong: OUT_OF_LIMITS,
        SlotframeUnderFiveBytes: SHAPE,
        /// Not exactly one slotframe.
        SlotframeCount: OUT_OF_LIMITS,
        /// The length does not go with the number of links.
        SlotframeLength: SHAPE,
        SlotframeTwice: MISSING_OR_TWICE,
        SlotframeSize: OUT_OF_LIMITS,
        NoLinks: OUT_OF_LIMITS,
        TooManyLinks: OUT_OF_LIMITS,
        LinkTimeslot: OUT_OF_LIMITS,

        /// No room for the flags and priorities.
        JoiningTooShort: SHAPE,
        /// The P flag is set, and there is no room for the address.
        JoiningAddressCut: SHAPE,
        /// The network ID has more than 16 bytes.
        JoiningTooLong: SHAPE,
        JoiningTwice: MISSING_OR_TWICE,

        SynchronizationMissing: MISSING_OR_TWICE,
        TimeslotMissing: MISSING_OR_TWICE,
        HoppingMissing: MISSING_OR_TWICE,
        SlotframeMissing: MISSING_OR_TWICE,
    }
    acks {
        /// The time correction's length is not 2.
        CorrectionLength: SHAPE,
        CorrectionTwice: MISSING_OR_TWICE,
        CorrectionMissing: MISSING_OR_TWICE,
    }
}

/// The frame control field of a frame that is not too long, and what stands behind it.
pub fn frame_control(frame: &[u8]) -> Result<(u16, &[u8]), Check> {
    if frame.len() > LONGEST_FRAME {
        return Err(Check::FrameTooLong);
    }
    let Some((control, rest)) = frame.split_first_chunk() else {
        return Err(Check::UnderTwoBytes);
    };
    Ok((u16::from_le_bytes(*control), rest))
}

/// What the frame control field says of the fields behind it.
pub struct Control {
    pub suppressed: bool,
    pub destination_mode: u16,
    pub source_mode: u16,
}

impl Control {
    /// Makes every check of the frame control field of a frame of this type, whose destination may have these modes, in
    /// their order. Always inlined, so that each reader has one for its own type.
    #[inline(always)]
    pub fn read(control: u16, frame_type: u16, destination_modes: &[u16]) -> Result<Control, Check> {
        let bit = |place: u32| control >> place & 1 == 1;
        let two_bits = |place: u32| control >> place & 0b11;
        if control & 0b111 != frame_type {
            return Err(Check::FrameType);
        }
        if two_bits(12) != VERSION {
            return Err(Check::FrameVersion);
        }
        if bit(3) {
            return Err(Check::Security);
        }
        let (destination_mode, source_mode) = (two_bits(10), two_bits(14));
        if !destination_modes.contains(&destination_mode) {
            return Err(Check::DestinationMode);
        }
        if source_mode != SHORT && source_mode != EXTENDED {
            return Err(Check::SourceMode);
        }
        if bit(6) != compression(destination_mode, source_mode) {
            return Err(Check::PanIdCompression);
        }
        if !bit(9) {
            return Err(Check::ElementsPresent);
        }
        Ok(Control { suppressed: bit(8), destination_mode, source_mode })
    }

    /// Takes the sequence number from the front, if there is one.
    #[inline(always)]
    pub fn sequence(&self, rest: &mut &[u8]) -> Result<Option<u8>, Check> {
        Ok(match self.suppressed {
            true => None,
            false => Some(u8::from_le_bytes(field(rest)?)),
        })
    }
}

/// Whether PAN ID compression is set between addresses of these modes. Either way there is one PAN ID, the destination's.
pub fn compression(destination_mode: u16, source_mode: u16) -> bool {
    destination_mode != EXTENDED || source_mode != EXTENDED
}

/// Takes a field from the front.
pub fn field<const N: usize>(rest: &mut &[u8]) -> Result<[u8; N], Check> {
    let (field, after) = rest.split_first_chunk().ok_or(Check::FieldsCut)?;
    *rest = after;
    Ok(*field)
}

/// The same for an address of this mode, short or extended.
#[inline(always)]
pub fn address(mode: u16, rest: &mut &[u8]) -> Result<Address, Check> {
    Ok(match mode {
        SHORT => Address::Short(u16::from_le_bytes(field(rest)?)),
        _ => Address::Extended(u64::from_le_bytes(field(rest)?)),
    })
}

/// What stands before the information elements, behind the frame control field.
#[derive(Clone, Copy, Debug, PartialEq, Eq)]
pub struct Fields {
    pub sequence: Option<u8>,
    pub pan: u16,
    pub destination: Address,
    pub source: Address,
}

impl Fields {
    /// How many bytes they have, with the frame control field.
    pub fn length(&self) -> usize {
        2 + usize::from(self.sequence.is_some()) + 2 + self.destination.length() + self.source.length()
    }

    /// Puts the frame control field and the fields of a frame of this type.
    #[inline(always)]
    pub fn put(&self, frame_type: u16, rest: &mut Rest) {
        let (destination_mode, source_mode) = (self.destination.mode(), self.source.mode());
        let compressed = u16::from(compression(destination_mode, source_mode));
        let suppressed = u16::from(self.sequence.is_none());
        // Elements are present; security and every bit that is ignored are clear.
        let flags = compressed << 6 | suppressed << 8 | 1 << 9;
        let control = frame_type | flags | destination_mode << 10 | VERSION << 12 | source_mode << 14;
        rest.put(&control.to_le_bytes());
        if let Some(sequence) = self.sequence {
            rest.put(&[sequence]);
        }
        rest.put(&self.pan.to_le_bytes());
        rest.put_address(self.destination);
        rest.put_address(self.source);
    }
}

/// Goes through the header list and shows ID and content of each element but a terminator; gives the payload list, which
/// is empty if none follows.
#[inline(always)]
pub fn header_list<'a>(
    mut list: &'a [u8],
    mut show: impl FnMut(u16, &'a [u8]) -> Result<(), Check>,
) -> Result<&'a [u8], Check> {
    while !list.is_empty() {
        let Some((descriptor, rest)) = list.split_first_chunk() else {
            return Err(Check::HeaderDescriptorCut);
        };
        let descriptor = u16::from_le_bytes(*descriptor);
        let length = usize::from(descriptor & 0x7F);
        let id = descriptor >> 7 & 0xFF;
        let Some((content, rest)) = rest.split_at_checked(length) else {
            return Err(Check::HeaderElementPastFrame);
        };
        if descriptor & BIT_15 != 0 {
            return Err(Check::HeaderBit15);
        }
        match id {
            HEADER_TERMINATION_1 if length != 0 => return Err(Check::HeaderTermination1WithLength),
            HEADER_TERMINATION_2 if length != 0 => return Err(Check::HeaderTermination2WithLength),
            HEADER_TERMINATION_1 => return Ok(rest),
            HEADER_TERMINATION_2 => return Ok(&[]),
            _ => show(id, content)?,
        }
        list = rest;
    }
    Ok(&[])
}

/// The rest of a frame, still to be written.
pub struct Rest<'a>(pub &'a mut [u8]);

impl Rest<'_> {
    pub fn put(&mut self, bytes: &[u8]) {
        let (field, rest) = std::mem::take(&mut self.0).split_at_mut(bytes.len());
        field.copy_from_slice(bytes);
        self.0 = rest;
    }

    fn put_address(&mut self, address: Address) {
        match address {
            Address::Short(address) => self.put(&address.to_le_bytes()),
            Address::Extended(address) => self.put(&address.to_le_bytes()),
        }
    }

    /// The descriptor of a header element.
    pub fn header(&mut self, id: u16, length: usize) {
        self.put(&(length as u16 | id << 7).to_le_bytes());
    }
}
