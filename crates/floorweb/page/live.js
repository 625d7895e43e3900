// What is told of the meeting while it goes on: late users, new floors, other chairs, and its end.

const FIRST_WAIT = 500;
const LONGEST_WAIT = 15_000;

/** Hands on what is told of the meeting each time that it changes. A floorweb that is told nothing of it says so, and nothing is tried again. */
export async function followMeeting(token, take) {
  let wait = FIRST_WAIT;
  for (;;) {
    try {
      const answer = await fetch("/live", { headers: { Authorization: `Bearer ${token}` } });
      if (answer.status === 404) return;
      if (answer.ok) {
        wait = FIRST_WAIT;
        if (await read(answer.body.getReader(), take)) return;
      }
    } catch {
      // It can't be reached.
    }
    await new Promise((resolve) => setTimeout(resolve, wait * (0.75 + Math.random() / 2)));
    wait = Math.min(2 * wait, LONGEST_WAIT);
  }
}

/** Reads line by line; an empty one is a sign of life. Tells whether nothing is ever told here. */
async function read(reader, take) {
  const decoder = new TextDecoder();
  let text = "";
  for (;;) {
    const { done, value } = await reader.read();
    if (done) return false;
    text += decoder.decode(value, { stream: true });
    const lines = text.split("\n");
    text = lines.pop();
    for (const line of lines) {
      if (!line) continue;
      const told = JSON.parse(line);
      if (told.live === false) return true;
      take(told);
    }
  }
}
