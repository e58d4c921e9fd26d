// bcsg 2 contour
// box -1 -1 61 31
union() {
  // own 162 10 3
  difference() {
    intersection() {
      translate([-1,-1,0]) square([62,32]);
      // out 162 -2 3
      translate([-8192,0,0]) square([16384,8192]);
      // out 182 10 3
      translate([-8132,-8192,0]) square([8192,16384]);
    }
    // out -2 10 3
    translate([-8192,-8162,0]) square([8192,16384]);
    // out 93 30 2
    translate([-8150,10,0]) square([16384,8192]);
  }
  // own 78 80 3
  difference() {
    intersection() {
      translate([-1,-1,0]) square([62,32]);
      // out 78 50 3
      translate([-8174,20,0]) square([16384,8192]);
      // out 182 80 3
      translate([-8150,-8172,0]) square([8192,16384]);
    }
    // out 78 92 3
    translate([-8132,30,0]) square([16384,8192]);
    // out -2 80 3
    translate([-8174,-8182,0]) square([8192,16384]);
  }
  // own 162 50 3
  difference() {
    intersection() {
      translate([-1,-1,0]) square([62,32]);
      // out 182 50 3
      translate([-8132,-8192,0]) square([8192,16384]);
      // out 162 -2 3
      translate([-8150,10,0]) square([16384,8192]);
    }
    // out 162 92 3
    translate([-8132,30,0]) square([16384,8192]);
    // out 27 30 2
    translate([-8150,-8172,0]) square([8192,16384]);
    // out 93 30 2
    translate([42,15,0]) circle(r=sqrt(25));
  }
  // own 18 50 3
  difference() {
    intersection() {
      translate([-1,-1,0]) square([62,32]);
      // out 93 30 2
      translate([-8174,-8182,0]) square([8192,16384]);
      // out 18 -2 3
      translate([-8150,10,0]) square([16384,8192]);
    }
    // out 18 92 3
    translate([-8132,30,0]) square([16384,8192]);
    // out -2 50 3
    translate([-8192,-8162,0]) square([8192,16384]);
    // out 27 30 2
    translate([18,15,0]) circle(r=sqrt(25));
  }
}
