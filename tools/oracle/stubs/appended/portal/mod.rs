pub fn oracle_walk_sector_boundary(
	origin_sector: &SectorID,
	scaled_costs: &BTreeMap<SectorID, CostField>,
	compass_dir: &CompassDir,
) -> Option<Vec<PortalWindow>> {
	walk_sector_boundary(origin_sector, &scaled_costs[origin_sector], scaled_costs, compass_dir)
}
