// bcsg 2 contour
// box -1 -1 61 41
union() {
  // own 140 8 3
  difference() {
    intersection() {
      translate([-1,-1,0]) square([62,42]);
      // out 140 -2 3
      translate([-8192,0,0]) square([16384,8192]);
      // out 182 8 3
      translate([-8132,-8192,0]) square([8192,16384]);
    }
    // out -2 8 3
    translate([-8192,-8152,0]) square([8192,16384]);
    // out 36 56 3
    translate([-8172,8,0]) square([16384,8192]);
  }
  // own 36 104 3
  difference() {
    intersection() {
      translate([-1,-1,0]) square([62,42]);
      // out 36 56 3
      translate([-8184,24,0]) square([16384,8192]);
      // out 140 104 3
      translate([-8172,-8168,0]) square([8192,16384]);
    }
    // out 120 286 7
    translate([-8172,40,0]) square([16384,8192]);
    // out -2 104 3
    translate([-8184,-8184,0]) square([8192,16384]);
  }
  // own 308 159 7
  difference() {
    intersection() {
      translate([-1,-1,0]) square([62,42]);
      // out 609 138 10
      translate([-8132,-8192,0]) square([8192,16384]);
      // out 140 -2 3
      translate([-8172,8,0]) square([16384,8192]);
    }
    // out 140 104 3
    multmatrix([[8,5,0,60],[-5,8,0,15],[0,0,1,0],[0,0,0,1]]) translate([-8192,0,0]) square([16384,8192]);
    // out 36 56 3
    translate([-8172,-8168,0]) square([8192,16384]);
  }
  // own 8 56 3
  difference() {
    intersection() {
      translate([-1,-1,0]) square([62,42]);
      // out 36 56 3
      translate([-8184,-8184,0]) square([8192,16384]);
      // out 8 -2 3
      translate([-8172,8,0]) square([16384,8192]);
    }
    // out 8 122 3
    translate([-8172,40,0]) square([16384,8192]);
    // out -2 56 3
    translate([-8192,-8152,0]) square([8192,16384]);
  }
}
