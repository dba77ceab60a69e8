impl IntegrationField {
	pub fn oracle_from(field: [u32; FIELD_RESOLUTION * FIELD_RESOLUTION], los_corners: Vec<usize>) -> Self {
		IntegrationField { field, los_corners }
	}
	pub fn oracle_corners(&self) -> &[usize] {
		&self.los_corners
	}
}

pub fn oracle_line_end(corner: &FieldCell, goal: &FieldCell) -> FieldCell {
	check_los_corner_propagation(corner, goal)
}
