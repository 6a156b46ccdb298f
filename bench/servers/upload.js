// Uploads that are refused: prints the status of each, or what was lost. Words: the front, and sizes in bytes.
const [front, ...sizes] = process.argv.slice(2);

(async () => {
  for (const size of sizes) {
    try {
      const reply = await fetch(front + "/upload", {method: "POST", body: new Uint8Array(Number(size))});
      await reply.arrayBuffer();
      console.log(reply.status);
    } catch (why) {
      console.log("lost: " + (why.cause && why.cause.code || why));
    }
  }
})();
