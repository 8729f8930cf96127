// One message of the crate as the line that the port's `show` prints, of what the Rust keeps (`as_rust` in driver.rs). Read as a module by driver.rs and by the
// yardstick for `show`.
// Names of fields are the Rust's own (stringify!), names of codes come from the crate's Debug; no pattern has `..`: the compiler counts the fields.
#[path = "digits.rs"]
mod digits;

pub use digits::number;
use itchy::*;
use std::io::Write;

// Bytes 20 to 7e stand for themselves, except the backslash; any other byte is \xHH.
fn text(out: &mut Vec<u8>, bytes: &[u8]) {
    for &b in bytes {
        if (0x20..0x7f).contains(&b) && b != b'\\' {
            out.push(b);
        } else {
            let digit = |n: u8| b"0123456789abcdef"[n as usize];
            out.extend_from_slice(&[b'\\', b'x', digit(b >> 4), digit(b & 15)]);
        }
    }
}

trait Value {
    fn put(&self, out: &mut Vec<u8>);
}

macro_rules! values {
    ($out:ident, $v:ident, $put:expr => $($t:ty),*) => { $(impl Value for $t { fn put(&self, $out: &mut Vec<u8>) { let $v = self; $put } })* };
}
values!(out, v, number(out, *v as u64) => u16, u32, u64);
values!(out, v, number(out, v.raw() as u64) => Price4, Price8);
values!(out, v, text(out, v.as_bytes()) => ArrayString4, ArrayString8);
values!(out, v, text(out, &[*v as u8]) => char); // made from one byte
values!(out, v, write!(out, "{:?}", v).unwrap() => bool, Option<bool>, EventCode, MarketCategory, FinancialStatus, IssueClassification, IssueSubType,
    LuldRefPriceTier, MarketMakerMode, MarketParticipantState, RegShoAction, TradingState, Side, ImbalanceDirection, CrossType, IpoReleaseQualifier,
    LevelBreached, InterestFlag);

impl Value for Option<ArrayString4> {
    fn put(&self, out: &mut Vec<u8>) {
        match self {
            None => out.extend_from_slice(b"None"),
            Some(t) => {
                out.extend_from_slice(b"Some(");
                t.put(out);
                out.push(b')');
            }
        }
    }
}

// The body's name and its fields, each behind a TAB: `name=value`.
macro_rules! body {
    ($out:ident, $name:literal $(, $f:ident)*) => {{
        $out.extend_from_slice(concat!("\tbody=", $name).as_bytes());
        $($out.extend_from_slice(concat!("\t", stringify!($f), "=").as_bytes()); $f.put($out);)*
    }};
}

// The same of a struct, whose fields are said once: the pattern that takes it apart has them all, or the compiler refuses it.
macro_rules! record {
    ($out:ident, $name:literal, $x:ident: $t:ident $(, $f:ident)*) => {{
        let $t { $($f),* } = $x;
        body!($out, $name $(, $f)*)
    }};
}

pub fn line(out: &mut Vec<u8>, m: &Message) {
    out.extend_from_slice(b"tag=");
    out.push(m.tag);
    out.extend_from_slice(b"\tstock_locate=");
    m.stock_locate.put(out);
    out.extend_from_slice(b"\ttracking_number=");
    m.tracking_number.put(out);
    out.extend_from_slice(b"\ttimestamp=");
    m.timestamp.put(out);
    match &m.body {
        Body::AddOrder(x) => record!(out, "AddOrder", x: AddOrder, reference, side, shares, stock, price, mpid),
        Body::Breach(level) => body!(out, "Breach", level),
        Body::BrokenTrade { match_number } => body!(out, "BrokenTrade", match_number),
        Body::CrossTrade(x) => record!(out, "CrossTrade", x: CrossTrade, shares, stock, cross_price, match_number, cross_type),
        Body::DeleteOrder { reference } => body!(out, "DeleteOrder", reference),
        Body::Imbalance(x) => record!(
            out, "Imbalance", x: ImbalanceIndicator,
            paired_shares, imbalance_shares, imbalance_direction, stock, far_price, near_price, current_ref_price, cross_type,
            price_variation_indicator
        ),
        Body::IpoQuotingPeriod(x) => record!(out, "IpoQuotingPeriod", x: IpoQuotingPeriod, stock, release_time, release_qualifier, price),
        Body::LULDAuctionCollar { stock, ref_price, upper_price, lower_price, extension } => {
            body!(out, "LULDAuctionCollar", stock, ref_price, upper_price, lower_price, extension)
        }
        Body::MwcbDeclineLevel { level1, level2, level3 } => body!(out, "MwcbDeclineLevel", level1, level2, level3),
        Body::NonCrossTrade(x) => record!(out, "NonCrossTrade", x: NonCrossTrade, reference, side, shares, stock, price, match_number),
        Body::OrderCancelled { reference, cancelled } => body!(out, "OrderCancelled", reference, cancelled),
        Body::OrderExecuted { reference, executed, match_number } => body!(out, "OrderExecuted", reference, executed, match_number),
        Body::OrderExecutedWithPrice { reference, executed, match_number, printable, price } => {
            body!(out, "OrderExecutedWithPrice", reference, executed, match_number, printable, price)
        }
        Body::ParticipantPosition(x) => record!(
            out, "ParticipantPosition", x: MarketParticipantPosition,
            mpid, stock, primary_market_maker, market_maker_mode, market_participant_state
        ),
        Body::RegShoRestriction { stock, action } => body!(out, "RegShoRestriction", stock, action),
        Body::ReplaceOrder(x) => record!(out, "ReplaceOrder", x: ReplaceOrder, old_reference, new_reference, shares, price),
        Body::StockDirectory(x) => record!(
            out, "StockDirectory", x: StockDirectory,
            stock, market_category, financial_status, round_lot_size, round_lots_only, issue_classification, issue_subtype, authenticity,
            short_sale_threshold, ipo_flag, luld_ref_price_tier, etp_flag, etp_leverage_factor, inverse_indicator
        ),
        Body::SystemEvent { event } => body!(out, "SystemEvent", event),
        Body::TradingAction { stock, trading_state, reason } => body!(out, "TradingAction", stock, trading_state, reason),
        Body::RetailPriceImprovementIndicator(x) => record!(
            out, "RetailPriceImprovementIndicator", x: RetailPriceImprovementIndicator,
            stock, interest_flag
        ),
    }
    out.push(b'\n');
}
