// Puts each piece of a page in the place of the first element that says that it is loading.
const pieces = () => [...document.querySelectorAll("body > template")];
function next() {
  const [piece] = pieces();
  if (!piece) return;
  document.querySelector(".loading").replaceWith(piece.content);
  piece.remove();
}
