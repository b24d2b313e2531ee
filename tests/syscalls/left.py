"""left.py PID FILE: whether the text of the file's first line is anywhere in the memory of a process."""
import sys

with open(sys.argv[2], "rb") as file:
    secret = file.readline().strip()
found = 0
with open(f"/proc/{sys.argv[1]}/maps", encoding="utf-8") as maps, open(f"/proc/{sys.argv[1]}/mem", "rb", 0) as memory:
    for line in maps:
        begin, end = (int(word, 16) for word in line.split()[0].split("-"))
        if "w" not in line.split()[1]:
            continue
        memory.seek(begin)
        found += memory.read(end - begin).count(secret)
print(f"it is there {found} times" if found else "none of it")
