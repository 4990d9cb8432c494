"""What the tools beside hept share."""
