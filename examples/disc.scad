// bcsg 2 contour
// box -6 -6 6 6
union() {
  // own 2 -2 1
  difference() {
    intersection() {
      translate([-6,-6,0]) square([12,12]);
      // out 9 6 2
      translate([0,0,0]) circle(r=sqrt(25));
    }
  }
}
