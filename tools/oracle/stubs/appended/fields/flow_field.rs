impl FlowField {
	pub fn oracle_from(field: [u8; FIELD_RESOLUTION * FIELD_RESOLUTION]) -> Self {
		FlowField { field }
	}
}
