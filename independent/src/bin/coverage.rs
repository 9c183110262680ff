//! Prints what the first N seeds reach, of texts, of books, of pairs of parts, of lists of calls, of trading days, of sellers together and
//! of hours with classroom bids: `coverage [N] [first seed]`.

use independent::coverage::books::BookCoverage;
use independent::coverage::calls::CallCoverage;
use independent::coverage::classroom::{ClassroomCoverage, OfBid};
use independent::coverage::contracts::ContractCoverage;
use independent::coverage::days::{DayCoverage, HourCoverage};
use independent::coverage::edges::Edges;
use independent::coverage::together::TogetherCoverage;
use independent::coverage::Coverage;
use std::process::ExitCode;
use std::time::Instant;

fn argument(index: usize, otherwise: u64) -> u64 {
    let given = std::env::args().nth(index);
    given.map_or(otherwise, |given| given.parse().expect("a whole number"))
}

fn print_list(title: &str, first: usize, counts: &[usize]) {
    println!("{title}");
    for (index, count) in counts.iter().enumerate() {
        println!("  {:>6} {count}", first + index);
    }
}

fn print(coverage: &Coverage) {
    println!("texts {}", coverage.texts);
    println!("bytes {}", coverage.bytes);
    print_list("refusal number (0: none)", 0, &coverage.refusals);
    print_list(
        "refusals after accepted intervals",
        0,
        &coverage.refusals_after,
    );
    println!("refused on line 1 {}", coverage.refused_on_line_1);
    println!("hours opened {}", coverage.opened);
    println!("intervals accepted {}", coverage.accepted_intervals);
    println!("parameters missing {}", coverage.parameters_missing);
    println!(
        "texts where a missing parameter decides {}",
        coverage.missing_deciding
    );
    print_list("texts by bytes", 65_535, &coverage.sizes);
    println!(
        "texts of 65,536 bytes accepted whole {}",
        coverage.full_texts_accepted_whole
    );
}

fn print_constraints(coverage: &Coverage) {
    print_list("verdicts", 0, &coverage.verdicts);
    println!("constraints at equality {}", coverage.at_equality);
    println!("constraints one above equality {}", coverage.one_above);
    println!("constraints with ties {}", coverage.ties);
    println!("constraints where a tie decides {}", coverage.deciding_ties);
    println!(
        "constraints with several sellers {}",
        coverage.several_sellers
    );
    println!(
        "  printed other than by rising number {}",
        coverage.sellers_not_rising
    );
    println!("  with equal ones among them {}", coverage.equal_sellers);
}

fn print_curves(coverage: &Coverage) {
    println!("most steps in a curve {}", coverage.most_steps);
    println!("curves of 20 steps {}", coverage.curves_of_20_steps);
    println!("default curves split {}", coverage.split_segments);
    println!(
        "default curves with the mark at a point {}",
        coverage.marks_at_a_point
    );
    println!(
        "default curves of 11 steps {}",
        coverage.default_curves_of_11_steps
    );
    println!("curves with both parts {}", coverage.curves_with_both_parts);
    println!("curves cut {}", coverage.curves_cut);
    println!("curves cut further {}", coverage.curves_cut_further);
    println!("submitted prices at a cap {}", coverage.prices_at_cap);
    println!(
        "components of 0, opposed {}",
        coverage.components_of_0_from_opposed_factors
    );
    println!(
        "components of 1 to 999,999 {}",
        coverage.components_below_a_million
    );
    println!("components below 0 {}", coverage.components_negative);
    println!("prices below 0 {}", coverage.prices_negative);
}

fn print_edges(edges: &Edges) {
    println!("13 with 256 resources or more {}", edges.resources_past_255);
    println!("  alike in eight bits {}", edges.resources_alike_in_8_bits);
    println!("  with 256 constraints too {}", edges.both_past_255);
    println!(
        "14 with 256 constraints or more {}",
        edges.constraints_past_255
    );
    println!(
        "  at most 32 in eight bits {}",
        edges.constraints_few_in_8_bits
    );
    println!("14 where 15 applies too {}", edges.both_14_and_15);
    println!("constraints with the most demand {}", edges.most_demand);
    println!("resource 63 of 64 cut {}", edges.last_of_64_cut);
    println!("resource 63 of 64 refused {}", edges.last_of_64_refused);
    println!(
        "competitive prices below the lowest lmp {}",
        edges.below_lowest_lmp
    );
    println!("  by 1,000,000,000 or more {}", edges.far_below_lowest_lmp);
}

fn print_books(books: &BookCoverage) {
    println!("books asked, both markets {}", books.asked);
    println!("21 for a list inside a pair alone {}", books.inside_a_pair);
    println!("21 for days that don't rise alone {}", books.not_rising);
    println!("  with equal days {}", books.equal_days);
    println!("  with falling days {}", books.falling_days);
    println!("  past the trading day only {}", books.not_rising_later);
    println!("21 for an empty run alone {}", books.empty);
    println!("  of an empty list {}", books.empty_lists);
    println!(
        "21, the other list has a price {}",
        books.only_other_has_price
    );
    println!("21, the costs are refused too {}", books.costs_refused_too);
    println!("runs up to a published day {}", books.published);
    println!("runs up to an unpublished day {}", books.unpublished);
    println!("runs before later entries {}", books.later_entries);
    println!("runs of all entries {}", books.whole_lists);
    println!("runs that end with day 0 {}", books.first_day);
    println!("runs that end with day 4294967295 {}", books.last_day);
    println!("runs beside a broken list {}", books.other_broken);
    println!("costs with the book's price accepted {}", books.refusals[0]);
    print_list("costs refused", 4, &books.refusals[4..]);
    println!("7 for the book's price alone {}", books.price_over_limit);
    println!("accepted, own gas price outside {}", books.own_gas_unread);
}

fn print_contracts(contracts: &ContractCoverage) {
    println!("pairs of parts {}", contracts.pairs);
    println!("joined {}", contracts.joined);
    println!("  to 11 steps {}", contracts.of_11_steps);
    println!("  with a price raised {}", contracts.raised);
    println!("    every one of the second part {}", contracts.all_raised);
    println!("    to one below 0 {}", contracts.raised_below_0);
    println!("  with none raised {}", contracts.none_raised);
    println!(
        "  with one price where the parts meet {}",
        contracts.one_price_where_they_meet
    );
    println!("  with prices below 0 {}", contracts.prices_negative);
    println!("  from quantity 0 to 1,000,000 {}", contracts.widest);
    println!("  with the furthest prices {}", contracts.furthest_prices);
    for (number, [alone, refused]) in contracts.by_number() {
        println!("{number} refused {refused}, alone {alone}");
    }
    println!("1, 2, 3 for both parts {:?}", contracts.both_parts);
    println!("first part's number the lower {}", contracts.first_lower);
    println!("second part's number the lower {}", contracts.second_lower);
    println!(
        "23 for a gap {}, an overlap {}",
        contracts.gaps, contracts.overlaps
    );
    println!("23 where 24 applies too {}", contracts.both_23_and_24);
    println!(
        "24 for 6 + 6 {}, 11 + 1 {}, 1 + 11 {}",
        contracts.six_and_six, contracts.eleven_and_one, contracts.one_and_eleven
    );
    println!("counts past 32 bits {}", contracts.counts_past_32_bits);
    println!(
        "counts past the numbers, joined {}, refused {}",
        contracts.short_joined, contracts.short_refused
    );
    println!("numbers past the count, joined {}", contracts.longer_joined);
}

fn print_calls(calls: &CallCoverage) {
    println!("lists of calls {}", calls.lists);
    print_list("opening refused (0: opened)", 0, &calls.openings);
    println!("1, 2, 3, 11 for a pack {:?}", calls.packs_refused);
    println!("a bid, its costs too {}", calls.costs_refused_too);
    println!("a bid, its pack too {}", calls.packs_refused_too);
    println!(
        "more than 16 portfolios or 64 resources {}",
        calls.counts_over_the_room
    );
    println!("resources with costs {}", calls.costs);
    println!("resources with packs {}", calls.packs);
    println!("  of 11 steps {}", calls.packs_of_11_steps);
    println!(
        "  with the furthest prices {}",
        calls.packs_at_furthest_prices
    );
    println!("contracted units {}", calls.contracts);
    println!("  with a price raised {}", calls.contracts_raised);
    println!("intervals accepted {}", calls.intervals[0]);
    print_list("intervals refused", 12, &calls.intervals[12..17]);
    println!("passes accepted {}", calls.passes[0]);
    print_list("passes refused", 13, &calls.passes[13..]);
    println!("  before any interval {}", calls.passes_too_early);
    println!("  after three passes {}", calls.passes_too_many);
    println!("causes answered {}", calls.causes[0]);
    print_list("causes refused", 13, &calls.causes[13..17]);
    print_effects(calls);
}

fn print_effects(calls: &CallCoverage) {
    println!(
        "calls accepted after a refused one {}",
        calls.accepted_after_refused
    );
    println!("passes of a full hour {}", calls.passes_of_a_full_hour);
    println!("curves cut by intervals {}", calls.cuts_in_intervals);
    println!("  with a pack {}", calls.cuts_of_packs);
    println!("  of contracted units {}", calls.cuts_of_contracts);
    println!("curves cut by passes {}", calls.cuts_in_passes);
    println!("  cut further {}", calls.further_cuts_in_passes);
    println!("five-minute curves begun anew {}", calls.begun_anew);
    println!("hour bids refused {}", calls.hour_bids_refused);
    println!("hour bids {}", calls.hour_bids);
    println!("  of unequal curves {}", calls.hour_bids_of_unequal_curves);
    println!("causes of a cut {}", calls.causes_of_a_cut);
    println!(
        "components above 0, not dispatched {}",
        calls.not_dispatched
    );
    println!("components below 0 {}", calls.components_negative);
    println!("most steps in a curve {}", calls.most_steps);
}

fn print_days(days: &DayCoverage) {
    println!("lists of trading days {}", days.lists);
    println!("  without a day {}", days.empty_lists);
    println!("  most days {}", days.longest);
    println!("trading days {}", days.days);
    println!("accepted {}", days.accepted);
    println!("25 for the last number alone {}", days.equal_numbers);
    println!("25 for a lower number alone {}", days.lower_numbers);
    println!("25 for a mark past the hours alone {}", days.past_the_hours);
    println!("  of both kinds {}", days.past_in_both_kinds);
    println!("25 for an hour not bound alone {}", days.not_bound);
    println!("25 for several causes {}", days.several_causes);
    println!("refused with 60 days held {}", days.refused_when_full);
    println!(
        "accepted below a refused number {}",
        days.accepted_below_refused
    );
    println!("first days of number 0 {}", days.first_is_0);
    println!("days of number 4294967295 {}", days.last_number);
    println!("days after a gap {}", days.gaps);
    println!("days without a mark {}", days.without_marks);
    println!("days bound in 24 hours {}", days.full_days);
    println!("days all non-competitive {}", days.all_non_competitive);
    println!("days with marks that went {}", days.marks_gone);
    print_list("designations", 0, &days.verdicts);
    println!("designations changed {}", days.verdict_changed);
    println!("9 bound hours, nothing else lacking {}", days.nine_hours);
    println!("10 bound hours, competitive {}", days.ten_hours);
    println!("three quarters exactly {}", days.three_quarters);
    println!("  of more than 60 days {}", days.three_quarters_of_latest);
    println!("an hour short of it {}", days.just_below);
    println!("  of more than 60 days {}", days.just_below_of_latest);
    print_hours(&days.hours);
}

fn print_hours(hours: &HourCoverage) {
    println!("hours marked by verdicts {}", hours.hours);
    println!("without intervals {}", hours.without_intervals);
    println!("not binding {}", hours.not_binding);
    println!("competitive {}", hours.competitive);
    println!("non-competitive {}", hours.non_competitive);
    println!(
        "  by an interval before the last {}",
        hours.by_an_earlier_interval
    );
    println!("hour 0 {}, hour 23 {}", hours.first_hour, hours.last_hour);
    println!(
        "hours 24 to 31 {}, past them {}",
        hours.past_the_hours, hours.past_32
    );
    println!("hours marked twice {}", hours.twice);
    println!("marks kept by an hour not binding {}", hours.mark_kept);
}

fn print_together(together: &TogetherCoverage) {
    println!("sellers together asked {}", together.asked);
    print_list("refused", 13, &together.refused);
    print_list(
        "refused where nothing binds too",
        13,
        &together.refused_and_none_binds,
    );
    println!("26 without a constraint {}", together.no_constraint);
    println!("26 with some {}", together.none_binds);
    println!("asked of a full hour {}", together.full_hours);
    println!("no set works {}", together.none);
    println!("  for the net buyers' part {}", together.none_for_buyers);
    println!("best is all net sellers {}", together.kept);
    println!("best replaced once {}", together.replaced);
    println!("best by steps {}", together.by_steps);
    println!("a tie kept {}", together.ties);
    println!("all tried, best at the floor {}", together.at_floor);
    println!("all tried, best above the floor {}", together.above_floor);
    println!("  by two or more {}", together.two_above_floor);
    println!("budget cut short {}", together.cut_short);
    println!("  above the fewest {}", together.cut_short_above);
    print_more_together(together);
}

fn print_more_together(together: &TogetherCoverage) {
    println!("budgets of 0 {}", together.budgets_of_0);
    println!("budgets past 63 bits {}", together.budgets_past_63_bits);
    println!(
        "one seller fewer leaves just demand {}",
        together.at_equality
    );
    println!("those needed leave one less {}", together.one_below);
    println!("members that withhold nothing {}", together.idle_members);
    println!(
        "constraints that don't bind decide {}",
        together.idle_constraints
    );
    println!("floors above 3 {}", together.floors_above_3);
    println!("32 binding constraints {}", together.binding_32);
    println!("most net sellers {}", together.most_sellers);
}

fn print_classroom(classroom: &ClassroomCoverage) {
    let lists = &classroom.lists;
    let of_bids = |count: fn(&OfBid) -> usize| -> Vec<usize> {
        let mut counts: Vec<usize> = classroom.bids.iter().map(count).collect();
        counts.sort_unstable();
        counts
    };
    println!("hours with classroom bids {}", classroom.hours);
    print_list("texts refused (0: none)", 0, &classroom.texts);
    print_list("opening refused (0: opened)", 0, &lists.openings);
    print_list("intervals refused (0: accepted)", 0, &lists.intervals);
    print_list("passes refused (0: accepted)", 0, &lists.passes);
    for (what, counts) in [
        ("opened", of_bids(|bid| bid.opened)),
        ("curves uncut", of_bids(|bid| bid.uncut)),
        ("curves cut", of_bids(|bid| bid.cut)),
    ] {
        let sum: usize = counts.iter().sum();
        println!("{what} {sum}, of the rarest bid {}", counts[0]);
    }
    println!("  in part {}", classroom.cut_in_part);
    println!("  below 0 {}", classroom.cut_below_0);
    println!("curves of fewer steps than the bid {}", classroom.merged);
    println!("curves of more steps {}", classroom.divided);
}

fn main() -> ExitCode {
    let (count, first) = (argument(1, 20_000), argument(2, 0));
    let start = Instant::now();
    let coverage = Coverage::of(first..first + count);
    print(&coverage);
    print_constraints(&coverage);
    print_curves(&coverage);
    print_edges(&coverage.edges);
    let books = BookCoverage::of(first..first + count);
    print_books(&books);
    let contracts = ContractCoverage::of(first..first + count);
    print_contracts(&contracts);
    let calls = CallCoverage::of(first..first + count);
    print_calls(&calls);
    let days = DayCoverage::of(first..first + count.div_ceil(20));
    print_days(&days);
    let together = TogetherCoverage::of(first..first + count);
    print_together(&together);
    let classroom = ClassroomCoverage::of(first..first + count);
    print_classroom(&classroom);
    println!("seconds {:.1}", start.elapsed().as_secs_f64());
    let of_calls = contracts.all_reached() && calls.all_reached();
    let of_requests = days.all_reached() && together.all_reached() && classroom.all_reached();
    match coverage.all_reached() && books.all_reached() && of_calls && of_requests {
        true => ExitCode::SUCCESS,
        false => {
            println!("not all reached");
            ExitCode::FAILURE
        }
    }
}
