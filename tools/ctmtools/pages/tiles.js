// The map behind the roads, where one was asked for: tiles of a server, which the browser fetches if it can.
const HALF = 20037508.342789244;  // m from the middle of the plane of the tiles to its edges
const TILE = 256;  // px

// The tiles that cover a box, given the places of its corners in m; `size` is px for each m.
function tilesFor([left, top], [right, bottom], size) {
  const level = Math.max(0, Math.min(19, Math.round(Math.log2(2 * HALF * size / TILE)))), wide = 2 * HALF / 2 ** level;
  const number = place => Math.max(0, Math.min(2 ** level - 1, Math.floor(place / wide)));
  const columns = d3.range(number(left + HALF), number(right + HALF) + 1), rows = d3.range(number(HALF - top), number(HALF - bottom) + 1);
  return columns.flatMap(x => rows.map(y => ({ x, y, z: level, place: [x * wide - HALF, HALF - y * wide], wide })));
}
function drawTiles(place, back, size, width, height) {
  const tiles = tilesFor(back([0, 0]), back([width, height]), size);
  d3.select("#map .tiles").selectAll("img").data(tiles, tile => `${tile.z}/${tile.x}/${tile.y}`).join("img")
    .attr("alt", "").attr("src", tile => data.background.tiles.replace("{z}", tile.z).replace("{x}", tile.x).replace("{y}", tile.y))
    .style("left", tile => `${place(tile.place)[0]}px`).style("top", tile => `${place(tile.place)[1]}px`)
    .style("width", tile => `${tile.wide * size + 0.5}px`).style("height", tile => `${tile.wide * size + 0.5}px`)
    .on("error", function () { this.style.display = "none"; });
}
