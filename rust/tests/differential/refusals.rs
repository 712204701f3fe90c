//! The refusals: numbers and texts, copied by hand.
use dfb::{Refusal, RefusedAt};

const REFUSALS: [(Refusal, u8, &str); 28] = [
    (Refusal::UnknownCommand, 1, "the command ID is outside 0x30 to 0x36"),
    (Refusal::WrongLength, 2, "a list has a wrong length, an output is too small, or a place or number does not fit"),
    (Refusal::UnsoundState, 3, "the state is not one that the board, the slots, the counting writer or a sum can have left"),
    (Refusal::UnknownApid, 4, "the APID is none of the seven, or 0x4E where a waveform's is wanted"),
    (Refusal::IncompleteSet, 5, "the words are not exactly one set"),
    (Refusal::NoProcessorEnabled, 6, "a SPEC word with no processor enabled"),
    (Refusal::IllegalBandCode, 7, "the band code is not legal"),
    (Refusal::SumCodeOverflow, 8, "the sum code's value is 2^64 or more"),
    (Refusal::UnknownRecordKind, 9, "the record kind is none of 1 to 4"),
    (Refusal::TruncatedBody, 10, "the log ends within a record"),
    (Refusal::InputTooLong, 11, "the log is over 65,536 bytes"),
    (Refusal::OutOfRange, 12, "a bin setting, band, FFT bin or NCAD choice is out of range, or a target is not 36 or 64 bands"),
    (Refusal::UnknownPacket, 14, "the packet's SID is not 33 or its auxiliary length is not 8"),
    (Refusal::PacketOutOfRange, 15, "the total of packets is over 3072, or the packet number is not below the total"),
    (Refusal::WrongPacketLength, 16, "the packet is under 20 bytes, or its bytes or samples are not as many as its mask says"),
    (Refusal::ComponentOutOfOrder, 17, "the component is not the next one"),
    (Refusal::KindNotInProfile, 18, "the record is neither a command nor a second mark"),
    (Refusal::SecondFalls, 19, "the second is smaller than that of the mark before it"),
    (Refusal::ValueAltered, 20, "the register would store another value than the one sent"),
    (Refusal::AveragesOverPeriod, 21, "a processor is enabled and N is above C"),
    (Refusal::WrongHeaderField, 22, "a space packet's header field is not as stated, or the first count is over 16383"),
    (Refusal::WrongDataLength, 23, "a space packet has a wrong length, or its samples are none or not whole sets"),
    (Refusal::TotalTooLarge, 24, "a band total is over 2^49"),
    (Refusal::TurnedAway, 25, "no slot is free and no held slot has a smaller criterion"),
    (Refusal::NothingToSend, 26, "nothing is held to send, or no criterion is above 0"),
    (Refusal::AlreadySending, 27, "a slot is already sending"),
    (Refusal::NoneSending, 28, "no slot is sending"),
    (Refusal::ZeroLimit, 29, "the limit is 0 blocks"),
];

#[test]
fn numbers_and_texts() {
    for (refusal, number, meaning) in REFUSALS {
        assert_eq!((refusal.number(), refusal.meaning()), (number, meaning));
        assert_eq!(refusal.to_string(), format!("refusal {number}: {meaning}"));
        assert_eq!(RefusedAt { refusal, offset: 9 }.to_string(), format!("refusal {number}: {meaning}, at offset 9"));
    }
}
