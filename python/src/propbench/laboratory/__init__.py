"""What a laboratory wants of measured quantities: tables of readings, laws as texts, devices,
results, a report, and statistics beside the bounds."""
