//! The norms against their limits, as bars with both figures.

use labrador::norms::{norms, Norm};

use super::html::{escape, section};
use super::Report;

/// Of the larger of two numbers, how many thousandths each is.
fn shares(norm: u128, limit: u128) -> (u128, u128) {
    let whole = norm.max(limit).max(1);
    // numbers of up to 128 bits are cut so that the product fits
    let cut = (128 - whole.leading_zeros()).saturating_sub(100);
    let share = |x: u128| (x >> cut) * 1000 / (whole >> cut);
    (share(norm), share(limit))
}

fn bar(norm: &Norm) -> String {
    let (length, limit) = shares(norm.norm, norm.limit);
    let over = norm.norm > norm.limit;
    let percent = match (norm.limit, over) {
        (_, true) => "<span class=\"over\">above the limit</span>".to_string(),
        (0, false) => "at the limit".to_string(),
        _ if length == 0 && norm.norm > 0 => "below 0.1 % of the limit".to_string(),
        _ => format!("{}.{} % of the limit", length / 10, length % 10),
    };
    let what = escape(norm.what);
    // the bar is drawn with lines, which are printed where backgrounds are not
    format!(
        "<div class=\"bar\">\n<div><strong>{}</strong> norm of {what}: {percent}</div>\n\
         <svg viewBox=\"0 0 1000 16\" preserveAspectRatio=\"none\" aria-hidden=\"true\">\
         <rect x=\"1\" y=\"1\" width=\"998\" height=\"14\" fill=\"#fff\" stroke=\"#595959\"/>\
         <rect x=\"1\" y=\"3\" width=\"{length}\" height=\"10\" fill=\"{}\"/>\
         <rect x=\"{}\" y=\"0\" width=\"4\" height=\"16\" fill=\"#000\"/></svg>\n\
         <div class=\"figures\">{} of {} ({})</div>\n</div>\n",
        norm.number,
        if over { "#a3131f" } else { "#33658a" },
        limit.min(996),
        norm.norm,
        norm.limit,
        escape(norm.limit_name),
    )
}

pub fn bars(report: &Report) -> String {
    let one = report.section_one().filter(|_| !report.before_work());
    let taken = one.and_then(|one| norms(&one, report.slices[2]).ok());
    let body = match taken {
        None => "<p>Not taken: the slices were refused.</p>\n".to_string(),
        Some(taken) => {
            let told = "<p>Taken of the transcript's words by the proved leaf calls. A bar is the norm, its upright line the limit; \
                        at the limit it passes.</p>\n";
            format!("{told}{}", taken.iter().map(bar).collect::<String>())
        }
    };
    section("norms", "Norms against their limits", &body)
}

#[cfg(test)]
mod tests {
    use super::shares;

    #[test]
    fn shares_of_small_and_large_numbers() {
        assert_eq!(shares(1, 2), (500, 1000));
        assert_eq!(shares(3, 0), (1000, 0));
        assert_eq!(shares(0, 0), (0, 0));
        assert_eq!(shares(u128::MAX, u128::MAX / 4), (1000, 249));
    }
}
