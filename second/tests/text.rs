//! The text tools, by what they make of texts and images.

#[path = "text/changed_texts.rs"]
mod changed_texts;
#[path = "text/command_line.rs"]
mod command_line;
#[path = "text/commands.rs"]
mod commands;
#[path = "text/helpers.rs"]
mod helpers;
#[path = "text/hosts.rs"]
mod hosts;
#[path = "text/images.rs"]
mod images;
#[path = "text/legal_programs.rs"]
mod legal_programs;
#[path = "text/modes.rs"]
mod modes;
#[path = "text/passes.rs"]
mod passes;
#[path = "text/procedures.rs"]
mod procedures;
#[path = "text/procedures_in_images.rs"]
mod procedures_in_images;
#[path = "text/refused_conditions.rs"]
mod refused_conditions;
#[path = "text/refused_programs.rs"]
mod refused_programs;
#[path = "text/refused_rules.rs"]
mod refused_rules;
#[path = "text/renew_command_line.rs"]
mod renew_command_line;
#[path = "text/renewing.rs"]
mod renewing;
#[path = "text/renewing_hosts.rs"]
mod renewing_hosts;
#[path = "text/round_trips.rs"]
mod round_trips;
#[path = "text/rules.rs"]
mod rules;
#[path = "text/small_core.rs"]
mod small_core;
#[path = "text/small_core_command_line.rs"]
mod small_core_command_line;
