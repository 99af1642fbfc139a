"""The command `wozgrzyt`: it runs the proved programs and says in words what they reply. Nothing here is proved."""
