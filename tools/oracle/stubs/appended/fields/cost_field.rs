impl CostField {
	pub fn oracle_from(field: [u8; FIELD_RESOLUTION * FIELD_RESOLUTION]) -> Self {
		CostField { field }
	}
}
