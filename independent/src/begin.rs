//! Begin, FindMin and withdraw: the calls on the card that need no fetched words.

use crate::badcard::bad_card;
use crate::card::{request_refused, Answer, Card, Request};
use crate::places::{insert_list, removal_list, BucketList};
use crate::refusal::Refusal;

/// The buckets that a request names. The card is good but for a request that may wait, and the
/// request is one that begin accepts, so its leaves are below N.
pub fn request_list(card: &Card, request: &Request) -> BucketList {
    match *request {
        Request::Insert { first, second, .. } => insert_list(card.h, first, second),
        // "ExtractMin uses the label of the root's least record"
        Request::ExtractMin => removal_list(card.h, card.least.label),
        // "Delete takes label and stamp."
        Request::Delete { label, .. } => removal_list(card.h, label),
    }
}

/// "Begin answers a list of bucket numbers in a lent slice, with how many are whole and how many
/// are least-record only. It changes nothing on the card but the waiting request, and list places
/// past the last number stay." The order is 13, 2, 4 to 10, 11.
pub fn begin(
    card: &Card,
    request: Request,
    list: &mut [u64],
) -> Result<(Card, BucketList), Refusal> {
    if bad_card(card) {
        return Err(Refusal::BadCard);
    }
    if card.waiting.is_some() {
        return Err(Refusal::Busy);
    }
    if let Some(refusal) = request_refused(card, &request) {
        return Err(refusal);
    }
    let named = request_list(card, &request);
    let numbers = named.numbers();
    if list.len() < numbers.len() {
        return Err(Refusal::ShortRoom);
    }
    for (place, number) in numbers.iter().enumerate() {
        list[place] = *number;
    }
    let mut after = card.clone();
    after.waiting = Some(request);
    Ok((after, named))
}

/// "FindMin answers the root's least record at once, with an empty list. It leaves the card
/// unchanged and is not a finished request"; "it checks 13, 2 and 8 only".
pub fn find_min(card: &Card) -> Result<Answer, Refusal> {
    if bad_card(card) {
        return Err(Refusal::BadCard);
    }
    if card.waiting.is_some() {
        return Err(Refusal::Busy);
    }
    if card.c == 0 {
        return Err(Refusal::Empty);
    }
    Ok(Answer::of(&card.least))
}

/// "Withdraw drops the waiting request and changes nothing else." It checks 13 and 3.
pub fn withdraw(card: &Card) -> Result<Card, Refusal> {
    if bad_card(card) {
        return Err(Refusal::BadCard);
    }
    if card.waiting.is_none() {
        return Err(Refusal::Idle);
    }
    let mut after = card.clone();
    after.waiting = None;
    Ok(after)
}
