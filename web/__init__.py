"""The page that ./page serves: its server, its answers and how they are shown."""
