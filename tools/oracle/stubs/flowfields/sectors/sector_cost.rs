//! Stands in for the unpublished `sectors/sector_cost.rs`: the type that `portal/mod.rs` names.

use std::collections::BTreeMap;

use petgraph::{Directed, stable_graph::StableGraph};

use crate::flowfields::{fields::cost_field::CostField, sectors::SectorID};

pub struct SectorCostFields;

impl SectorCostFields {
	pub fn get_scaled_costs(&self) -> &BTreeMap<SectorID, CostField> {
		unimplemented!("route finding")
	}
	pub fn get_graphs(&self) -> &BTreeMap<SectorID, StableGraph<u8, u8, Directed, u16>> {
		unimplemented!("route finding")
	}
}
