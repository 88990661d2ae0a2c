//! The wrapper and the exported call, from outside.

mod c_host;
mod call;
mod cigar;
mod columns;
mod dispatch;
mod family;
mod family_call;
mod family_list;
mod family_refusals;
mod limits;
mod partner;
mod positions;
mod rates;
mod samples;
mod selection;
mod sheet;
mod text_form;
