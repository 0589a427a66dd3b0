// Reads the page's data, and begins.

async function begin() {
  try {
    const data = JSON.parse(byId("data").textContent);
    const texts = await Promise.all(data.texts.map(Text.read));
    const desk = new Desk(texts, new Units(data.units), data.flow ? new Flow(data.flow) : null);
    window.gaffcurrant = { desk, texts, verdictsOf, runOf, traceOf };
  } catch (error) {
    const isOld = typeof DecompressionStream === "undefined";
    byId("trouble").hidden = false;
    byId("trouble").textContent = isOld ? "This browser is too old for the page: it can't unpack its data."
      : `The page can't be shown: ${error.message}`;
    throw error;
  }
}

begin();
