//! Tests of the libraries, which use only public names. `.ci/tests` runs them, and no proof covers them. A module of tests has the name of
//! the crate that it tests. The modules `captures`, `expect`, `packets` and `summaries` contain functions that several of these modules
//! use.
#![tactic(auto)]

#[cfg(test)]
mod capture_arguments;
#[cfg(test)]
mod capture_file;
#[cfg(test)]
mod capture_json;
#[cfg(test)]
mod capture_packet;
#[cfg(test)]
mod capture_run;
#[cfg(test)]
mod capture_selection;
#[cfg(test)]
mod capture_summary;
#[cfg(test)]
mod capture_text;
#[cfg(test)]
mod capture_words;
mod captures;
#[cfg(test)]
mod etherparse_transport;
mod expect;
#[cfg(test)]
mod icmp_part;
#[cfg(test)]
mod ip_part;
#[cfg(test)]
mod ip_translation;
#[cfg(test)]
mod net_base;
mod packets;
#[cfg(test)]
mod program_files;
#[cfg(test)]
mod reassembly;
mod summaries;
#[cfg(test)]
mod tcp_part;
#[cfg(test)]
mod timeline;
#[cfg(test)]
mod transport_part;
#[cfg(test)]
mod udp_part;
#[cfg(test)]
mod word_sum;
