//! Checks 2 to 6: the limits that an opening and every later run keep.

use crate::check;
use crate::form::Form;
use crate::plan::Plan;
use crate::set;

/// The longest network: check 6.
pub(crate) const MOST_NETWORK_WORDS: u64 = 524_288;

/// The first of checks 2 to 4 that the plan fails.
pub(crate) const fn plan(plan: Plan) -> Result<(), u64> {
    if plan.n < 4 || plan.n > 64 {
        return Err(check::PROCESSORS);
    }
    if plan.delta < 1 || plan.delta > 1_000 {
        return Err(check::DELAY_OR_SLOT);
    }
    // "Check 3 wants `gamma` at least" 4 `delta` "for k=2," 2 `delta`
    // "otherwise": any other k, which check 4 has not judged yet.
    let delays = if plan.k == 2 { 4 } else { 2 };
    if plan.gamma < delays * plan.delta || plan.gamma > 10_000 {
        return Err(check::DELAY_OR_SLOT);
    }
    if plan.k < 2 || plan.k > 8 {
        return Err(check::VIEW_LIMIT);
    }
    if plan.views < 3 || plan.views > 6_000 || !plan.views.is_multiple_of(plan.k) {
        return Err(check::VIEW_LIMIT);
    }
    Ok(())
}

/// Whether check 6 passes a network of so many words, for whatever n: it has
/// not "fewer than" the least of its form "or more than 524,288".
pub(crate) fn network<F: Form>(_: F, n: u64, words: usize) -> bool {
    let words = words as u128;
    words >= u128::from(n) * u128::from(F::LEAST) && words <= u128::from(MOST_NETWORK_WORDS)
}

/// The first of checks 2 to 6 that a plan, its faulty processors and the lent
/// words fail.
pub(crate) fn all<F: Form>(
    form: F,
    fixed: Plan,
    faulty: u64,
    tally: &[u64],
    lent: &[u64],
) -> Result<(), u64> {
    plan(fixed)?;
    if faulty & !set::below(fixed.n) != 0 || set::size(faulty) > fixed.tolerance() {
        return Err(check::TOO_FAULTY);
    }
    if (tally.len() as u64) < 4 * fixed.views || !network(form, fixed.n, lent.len()) {
        return Err(check::BUFFERS);
    }
    Ok(())
}
