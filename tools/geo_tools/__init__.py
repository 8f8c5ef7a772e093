"""The tools of the repository: drills, stories, pages, refusals, and what makes and checks what is stored."""
