"""What the tools beside this folder share: case texts, printed texts, the program, S1AP names, captures, schedules and charts."""
