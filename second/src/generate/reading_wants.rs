//! What a frame that reads state is wanted for.

use crate::reading_in::Lack;

#[derive(Clone, Copy, Debug, PartialEq, Eq)]
pub enum Want {
    BeforeEnd,
    AtEnd,
    PastEnd,
    NewestInLowerSlot,
    OtherRefreshed,
    NewestRunOut,
    Live,
    NoneLive,
    OtherPackageLive,
    AtLimit,
    JustAboveLimit,
    HugeClock,
    BelowLatest,
    AddressInOtherCase,
    AddressWithZeroBehind,
    PackageInOtherCase,
    PackageWithMoreBehind,
    NotKnown,
    Lacking(Lack),
    Odd,
}

/// What the deck of readings holds.
pub const ALL: [Want; 24] = [
    Want::BeforeEnd,
    Want::AtEnd,
    Want::PastEnd,
    Want::NewestInLowerSlot,
    Want::OtherRefreshed,
    Want::NewestRunOut,
    Want::Live,
    Want::NoneLive,
    Want::OtherPackageLive,
    Want::AtLimit,
    Want::JustAboveLimit,
    Want::HugeClock,
    Want::BelowLatest,
    Want::BelowLatest,
    Want::AddressInOtherCase,
    Want::AddressWithZeroBehind,
    Want::PackageInOtherCase,
    Want::PackageWithMoreBehind,
    Want::NotKnown,
    Want::Lacking(Lack::AddressLength),
    Want::Lacking(Lack::Address),
    Want::Lacking(Lack::PackageLength),
    Want::Lacking(Lack::Package),
    Want::Odd,
];
