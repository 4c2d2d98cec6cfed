"""A road in the loop: each period the queues are counted, the program gives the stage, and its road gets green."""
import subprocess

queues = [5, 2]  # vehicles on the roads a and b; a green passes two of them
control = subprocess.Popen(["./maxpressure", "control", "examples/overloaded.toml"], stdin=subprocess.PIPE, stdout=subprocess.PIPE, text=True)
print(control.stdout.readline(), end="")
for arrived in [(0, 1), (1, 2), (0, 0), (0, 1)]:
    print(*queues, sep=",", file=control.stdin, flush=True)
    answer = control.stdout.readline()
    stage = int(answer.split(" s ")[1])
    queues = [max(0, n - 2 * (stage == road)) + more for road, (n, more) in enumerate(zip(queues, arrived), 1)]
    print(answer, end="")
print(control.communicate()[0], end="")
