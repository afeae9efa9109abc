"""What the commands of tests/ are made of. What several share stands here, what one alone has in a folder named after it."""
