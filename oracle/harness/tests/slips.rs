//! Each planted slip is found, by the smallest journal that shows it.

use harness::compare::{compare, Found};
use plain::{Plain, Slip, SLIPS};

#[test]
fn every_planted_slip_is_found() {
    for (slip, edition) in SLIPS {
        let mut plain = Plain::with_slip(Some(slip));
        let (_, found) = compare(&mut plain, edition, 1, 20_000);
        let Some(Found::Run(failure)) = found else { panic!("{slip:?} is not found") };
        let most = match slip {
            Slip::TwelveRounds | Slip::SixteenRounds => 17,
            Slip::AnyCounter | Slip::DefaultedActive => 7,
            Slip::CentsLeft | Slip::PresentTerms | Slip::RestKept | Slip::InterestStays => 9,
            Slip::KindLate | Slip::KindCut => 5,
            Slip::DeadlineMoves | Slip::AmountLate => 6,
            Slip::RoundStays | Slip::WithdrawLowers | Slip::AmountReached => 5,
        };
        let length = failure.commands.len();
        assert!(length <= most, "{slip:?} is shown by {length} commands");
    }
}

#[test]
fn a_short_comparison_finds_no_difference() {
    for edition in 1..=journal::LATEST {
        let (report, found) = compare(&mut Plain::default(), edition, 2, 5_000);
        assert!(found.is_none());
        assert_eq!(report.commands, 5_000);
    }
}
