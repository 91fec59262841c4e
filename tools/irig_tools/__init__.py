"""What irig_damage and irig_mend are made of: they find and mend damage by what irig_ed says of a track."""
